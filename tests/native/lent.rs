//! Lists that are lent to the engine, each in pages of its own between two unreadable pages: at the end of its pages, so that
//! one step too far is a signal, or at their start, so that one step before it is. All pages are filled with noise first, and
//! what the engine may not touch must still be that noise afterwards.
use crate::pages::Pages;
use std::rc::Rc;

#[derive(Clone, Copy)]
pub enum Side {
    Start,
    End,
}

/// A list of numbers in its pages. `T` is one of the integer types that the engine's interface names.
pub struct Lent<T> {
    pages: Pages,
    noise: Rc<Vec<u8>>,
    noise_from: usize,
    first: usize,
    count: usize,
    null: bool,
    element: std::marker::PhantomData<T>,
}

/// How a list is lent this time.
#[derive(Clone, Copy)]
pub struct Plan {
    pub count: usize,
    pub side: Side,
    /// A null pointer, if the count is 0.
    pub null: bool,
    pub noise_from: usize,
}

impl<T: Copy + PartialEq> Lent<T> {
    pub fn with_room(most: usize, noise: &Rc<Vec<u8>>) -> Lent<T> {
        let pages = Pages::holding(most * size_of::<T>());
        assert!(noise.len() > 2 * pages.length, "too little noise");
        let noise = noise.clone();
        Lent { pages, noise, noise_from: 0, first: 0, count: 0, null: false, element: std::marker::PhantomData }
    }

    /// Lays the list out anew, all noise.
    pub fn lend(&mut self, plan: Plan) {
        let bytes = plan.count * size_of::<T>();
        assert!(bytes <= self.pages.length, "more lent than there is room for");
        self.noise_from = plan.noise_from % (self.noise.len() - self.pages.length);
        self.count = plan.count;
        self.null = plan.null && plan.count == 0;
        self.first = match plan.side {
            Side::Start => 0,
            Side::End => self.pages.length - bytes,
        };
        unsafe { std::ptr::copy_nonoverlapping(self.before().as_ptr(), self.pages.start, self.pages.length) }
    }

    /// Lays out a list that the engine reads. It may be longer than the values.
    pub fn lend_values(&mut self, values: &[T], plan: Plan) {
        self.lend(plan);
        let values = &values[..values.len().min(self.count)];
        unsafe { std::ptr::copy_nonoverlapping(values.as_ptr(), self.start(), values.len()) }
    }

    fn start(&self) -> *mut T {
        unsafe { self.pages.start.add(self.first) as *mut T }
    }

    pub fn pointer(&self) -> *mut T {
        if self.null {
            std::ptr::null_mut()
        } else {
            self.start()
        }
    }

    pub fn count(&self) -> usize {
        self.count
    }

    pub fn values(&self) -> &[T] {
        unsafe { std::slice::from_raw_parts(self.start(), self.count) }
    }

    /// What all the pages held at first.
    fn before(&self) -> &[u8] {
        &self.noise[self.noise_from..self.noise_from + self.pages.length]
    }

    /// Is everything as it was laid out, but the first `written` places of the list?
    pub fn untouched_past(&self, written: usize) -> bool {
        let end = self.first + written.min(self.count) * size_of::<T>();
        let (now, before) = (self.pages.bytes(), self.before());
        now[..self.first] == before[..self.first] && now[end..] == before[end..]
    }

    /// Does the list start with these values, and is all else as it was laid out?
    pub fn holds(&self, values: &[T]) -> bool {
        let start = self.values().get(..values.len());
        start == Some(values) && self.untouched_past(values.len())
    }

    /// Adds one to a byte of the list, or beside it: what the harness must notice.
    pub fn spoil(&mut self, place: usize) {
        if place < self.count {
            unsafe { *(self.start().add(place) as *mut u8) ^= 1 }
        }
    }

    pub fn spoil_outside(&mut self) {
        let outside = if self.first > 0 { self.first - 1 } else { self.count * size_of::<T>() };
        if outside < self.pages.length {
            unsafe { *self.pages.start.add(outside) ^= 1 }
        }
    }

    /// Writes one place past the list.
    pub fn write_past(&mut self) {
        unsafe { std::ptr::write_volatile(self.start().add(self.count) as *mut u8, 0) }
    }
}
