//! The machine: one step, and the counted run.
use super::lex::is_blank;
use super::{CELLS, MOST_CODE};
use crate::protocol::{trimmed, Ended, Place};

pub const PROMPT: &[u8] = b"<== Please input: ";

/// Where an input line is read, and what it left: everything that a step may change.
struct Machine<'a> {
    cells: Vec<i64>,
    place: usize,
    base: i64,
    top: usize,
    input: &'a [u8],
    lines: usize,
    output: Vec<u8>,
    room: usize,
}

pub fn run(code: &[Place], input: &[u8], budget: u32, room: usize) -> Ended {
    let (Machine { cells, lines, output, .. }, number, steps) = ended(code, input, budget, room);
    Ended { number, lines, steps, output, values: trimmed(&cells).to_vec() }
}

/// The place of the step that was refused, where a run is refused.
pub fn refused_place(code: &[Place], input: &[u8], budget: u32, room: usize) -> usize {
    ended(code, input, budget, room).0.place
}

/// The machine at its end, the number and the steps completed.
fn ended<'a>(code: &[Place], input: &'a [u8], budget: u32, room: usize) -> (Machine<'a>, u8, u32) {
    let cells = vec![0; CELLS];
    let mut machine = Machine { cells, place: 0, base: 0, top: 0, input, lines: 0, output: vec![], room };
    if code.len() > MOST_CODE {
        return (machine, 15, 0);
    }
    for steps in 0..budget {
        if let Err(number) = machine.step(code) {
            return (machine, number, steps);
        }
        if machine.place == 0 {
            return (machine, 0, steps + 1);
        }
    }
    (machine, 16, budget)
}

fn in_list(target: i64, code: &[Place]) -> Result<usize, u8> {
    usize::try_from(target).ok().filter(|&place| place < code.len()).ok_or(18)
}

impl Machine<'_> {
    /// Each arm judges everything before it changes anything.
    fn step(&mut self, code: &[Place]) -> Result<(), u8> {
        let Place { kind, level, operand } = *code.get(self.place).ok_or(18)?;
        let next = self.place + 1;
        match kind {
            0 => self.push(operand)?,
            1 => return self.operation(operand, code),
            2 => {
                let from = self.from_base(self.static_base(level, None)?, operand)?;
                self.push(self.cells[from])?;
            }
            3 => {
                let from = self.below_top(1)?;
                let to = self.from_base(self.static_base(level, None)?, operand)?;
                self.cells[to] = self.cells[from];
                self.top -= 1;
            }
            4 => {
                let from = self.below_top(level as usize)?;
                let to = self.from_base(self.top as i64, operand)?;
                self.cells[to] = self.cells[from];
            }
            5 => {
                let last = self.from_base(self.top as i64, 2)?;
                let static_base = self.static_base(level, Some(self.base))?;
                let target = in_list(operand, code)?;
                self.cells[last - 2] = self.base;
                self.cells[last - 1] = static_base;
                self.cells[last] = next as i64;
                self.base = self.top as i64;
                self.place = target;
                return Ok(());
            }
            6 => {
                let more = usize::try_from(operand).map_err(|_| 17)?;
                self.top = self.top.checked_add(more).filter(|&top| top <= CELLS).ok_or(17)?;
            }
            7 => {
                self.place = in_list(operand, code)?;
                return Ok(());
            }
            8 => {
                if self.cells[self.below_top(1)?] == 0 {
                    self.place = in_list(operand, code)?;
                    return Ok(());
                }
            }
            9 => {
                let to = self.from_base(self.static_base(level, None)?, operand)?;
                if self.top == CELLS {
                    return Err(17);
                }
                self.cells[to] = self.read()?;
                self.top += 1;
            }
            10 => self.write_number()?,
            _ => return Err(21),
        }
        self.place = next;
        Ok(())
    }

    fn operation(&mut self, number: i64, code: &[Place]) -> Result<(), u8> {
        match number {
            0 => {
                let last = self.from_base(self.base, 2)?;
                let target = in_list(self.cells[last], code)?;
                self.top = last - 2;
                self.base = self.cells[self.top];
                self.place = target;
                return Ok(());
            }
            1 | 6 => {
                let at = self.below_top(1)?;
                let value = self.cells[at];
                self.cells[at] = if number == 6 { value % 2 } else { value.checked_neg().ok_or(19)? };
            }
            2..=5 | 8..=13 => {
                let at = self.below_top(2)?;
                self.cells[at] = binary(number, self.cells[at], self.cells[at + 1])?;
                self.top -= 1;
            }
            7 => {}
            14 => self.write_number()?,
            15 => self.put(b"\n")?,
            16 => {
                self.from_base(self.top as i64, 0)?;
                let value = self.read()?;
                self.push(value)?;
            }
            _ => return Err(21),
        }
        self.place += 1;
        Ok(())
    }

    fn push(&mut self, value: i64) -> Result<(), u8> {
        *self.cells.get_mut(self.top).ok_or(17)? = value;
        self.top += 1;
        Ok(())
    }

    /// The cell `depth` below top.
    fn below_top(&self, depth: usize) -> Result<usize, u8> {
        self.top.checked_sub(depth).filter(|&cell| cell < CELLS).ok_or(17)
    }

    /// The cell `offset` above a base; neither may be negative.
    fn from_base(&self, base: i64, offset: i64) -> Result<usize, u8> {
        if base < 0 || offset < 0 {
            return Err(17);
        }
        base.checked_add(offset).map(|cell| cell as usize).filter(|&cell| cell < CELLS).ok_or(17)
    }

    /// The base `level` static links up. A call has its first link written by then: it stands at top.
    fn static_base(&self, level: u16, first_link: Option<i64>) -> Result<i64, u8> {
        let mut base = self.base;
        for _ in 0..level {
            let link = self.from_base(base, 1)?;
            base = match first_link {
                Some(written) if link == self.top => written,
                _ => self.cells[link],
            };
        }
        Ok(base)
    }

    fn put(&mut self, bytes: &[u8]) -> Result<(), u8> {
        if self.output.len() + bytes.len() > self.room {
            return Err(23);
        }
        self.output.extend(bytes);
        Ok(())
    }

    fn write_number(&mut self) -> Result<(), u8> {
        let value = self.cells[self.below_top(1)?];
        self.put(format!("{value}  ").as_bytes())
    }

    /// Prompts and takes one line.
    fn read(&mut self) -> Result<i64, u8> {
        if self.input.is_empty() {
            return Err(22);
        }
        let line = self.input.split(|&byte| byte == b'\n').next().unwrap_or_default();
        let value = entry(line)?;
        self.put(PROMPT)?;
        self.input = &self.input[self.input.len().min(line.len() + 1)..];
        self.lines += 1;
        Ok(value)
    }
}

fn binary(number: i64, left: i64, right: i64) -> Result<i64, u8> {
    let value = match number {
        2 => left.checked_add(right),
        3 => left.checked_sub(right),
        4 => left.checked_mul(right),
        5 if right == 0 => return Err(20),
        5 => left.checked_div(right),
        8 => Some((left == right) as i64),
        9 => Some((left != right) as i64),
        10 => Some((left < right) as i64),
        11 => Some((left >= right) as i64),
        12 => Some((left > right) as i64),
        _ => Some((left <= right) as i64),
    };
    value.ok_or(19)
}

/// The number on a line: its first run of bytes between blanks.
fn entry(line: &[u8]) -> Result<i64, u8> {
    if line.iter().any(|&byte| byte >= 128) {
        return Err(22);
    }
    let field = line.split(|&byte| is_blank(byte)).find(|field| !field.is_empty()).ok_or(22)?;
    String::from_utf8_lossy(field).parse().map_err(|_| 22)
}
