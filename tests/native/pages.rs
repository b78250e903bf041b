//! Memory between two unreadable pages.
use std::ffi::c_void;

extern "C" {
    fn mmap(address: *mut c_void, length: usize, protection: i32, flags: i32, file: i32, offset: i64) -> *mut c_void;
    fn mprotect(address: *mut c_void, length: usize, protection: i32) -> i32;
    fn sysconf(name: i32) -> i64;
}

const PROT_NONE: i32 = 0;
const PROT_READ_WRITE: i32 = 3;
const MAP_PRIVATE_ANONYMOUS: i32 = 0x22;
const SC_PAGESIZE: i32 = 30;

/// Readable pages between two unreadable ones; they stay for as long as the process runs.
pub struct Pages {
    pub start: *mut u8,
    pub length: usize,
}

impl Pages {
    /// As many whole pages as hold so many bytes.
    pub fn holding(bytes: usize) -> Pages {
        unsafe {
            let page = sysconf(SC_PAGESIZE) as usize;
            let length = bytes.div_ceil(page).max(1) * page;
            let all = mmap(std::ptr::null_mut(), length + 2 * page, PROT_NONE, MAP_PRIVATE_ANONYMOUS, -1, 0) as *mut u8;
            assert!(all as isize != -1, "no pages to be had");
            let start = all.add(page);
            assert!(mprotect(start as *mut c_void, length, PROT_READ_WRITE) == 0, "no pages to be had");
            Pages { start, length }
        }
    }

    pub fn bytes(&self) -> &[u8] {
        unsafe { std::slice::from_raw_parts(self.start, self.length) }
    }
}
