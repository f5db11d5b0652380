// What the bench compares with: the same instructions as a plain loop, over the same sorted list of pages with rights.
// It runs the same guest. Build it with `rustc --edition 2024 -O`.

use std::time::Instant;

const READ: u8 = 1;
const WRITE: u8 = 2;
const EXECUTE: u8 = 4;
const PAGE_SIZE: u64 = 4096;

struct Page {
    number: u64,
    rights: u8,
    bytes: Box<[u8; 4096]>,
}

struct Space {
    pages: Vec<Page>,
}

impl Space {
    fn map(&mut self, first: u64, count: u64, rights: u8) {
        for number in first..first + count {
            self.pages.push(Page {
                number,
                rights,
                bytes: Box::new([0; 4096]),
            });
        }
        self.pages.sort_by_key(|page| page.number);
    }

    // The index of the page that has the address, where the page has the right. A search that ends where it finds the
    // page is faster here than the standard library's.
    #[inline(always)]
    fn page_index(&self, at: u64, right: u8) -> Option<usize> {
        let number = at / PAGE_SIZE;
        let (mut low, mut high) = (0, self.pages.len());
        while low < high {
            let middle = low + (high - low) / 2;
            let page = &self.pages[middle];
            if page.number == number {
                return (page.rights & right == right).then_some(middle);
            }
            if page.number < number {
                low = middle + 1;
            } else {
                high = middle;
            }
        }
        None
    }

    #[inline(always)]
    fn load<const N: usize>(&self, at: u64, right: u8) -> Option<[u8; N]> {
        let offset = (at % PAGE_SIZE) as usize;
        if offset + N <= PAGE_SIZE as usize {
            let page = self.page_index(at, right)?;
            return self.pages[page].bytes[offset..offset + N].try_into().ok();
        }
        let mut bytes = [0; N];
        for (index, byte) in bytes.iter_mut().enumerate() {
            let at = at.wrapping_add(index as u64);
            *byte = self.pages[self.page_index(at, right)?].bytes[(at % PAGE_SIZE) as usize];
        }
        Some(bytes)
    }

    fn store<const N: usize>(&mut self, at: u64, bytes: [u8; N]) -> Option<()> {
        let offset = (at % PAGE_SIZE) as usize;
        if offset + N <= PAGE_SIZE as usize {
            let page = self.page_index(at, WRITE)?;
            self.pages[page].bytes[offset..offset + N].copy_from_slice(&bytes);
            return Some(());
        }
        for index in 0..N as u64 {
            self.page_index(at.wrapping_add(index), WRITE)?;
        }
        for (index, byte) in bytes.into_iter().enumerate() {
            let at = at.wrapping_add(index as u64);
            let page = self.page_index(at, WRITE)?;
            self.pages[page].bytes[(at % PAGE_SIZE) as usize] = byte;
        }
        Some(())
    }
}

#[derive(PartialEq, Eq)]
enum Step {
    Ran,
    Call,
    Counter,
    Fault,
}

struct Machine {
    regs: [u64; 32],
    pc: u64,
    space: Space,
}

// The bits from `low` on, sign-extended from the word's highest.
fn top(word: u32, low: u32) -> u64 {
    ((word as i32) >> low) as i64 as u64
}

fn branch_offset(word: u32) -> u64 {
    let high = top(word, 31) << 12;
    high | u64::from((word >> 7 & 1) << 11 | (word >> 25 & 0x3f) << 5 | (word >> 8 & 0xf) << 1)
}

fn jump_offset(word: u32) -> u64 {
    let high = top(word, 31) << 20;
    high | u64::from(word & 0xf_f000 | (word >> 20 & 1) << 11 | (word >> 21 & 0x3ff) << 1)
}

fn signed_32(value: u64) -> u64 {
    value as i32 as i64 as u64
}

fn mulh(a: u64, b: u64) -> u64 {
    ((i128::from(a as i64) * i128::from(b as i64)) >> 64) as u64
}

fn mulhsu(a: u64, b: u64) -> u64 {
    ((i128::from(a as i64) * i128::from(b)) >> 64) as u64
}

fn mulhu(a: u64, b: u64) -> u64 {
    ((u128::from(a) * u128::from(b)) >> 64) as u64
}

fn div(a: u64, b: u64) -> u64 {
    if b == 0 { u64::MAX } else { (a as i64).wrapping_div(b as i64) as u64 }
}

fn rem(a: u64, b: u64) -> u64 {
    if b == 0 { a } else { (a as i64).wrapping_rem(b as i64) as u64 }
}

fn divw(a: u64, b: u64) -> u64 {
    if b as u32 == 0 { u64::MAX } else { (a as i32).wrapping_div(b as i32) as i64 as u64 }
}

fn divuw(a: u64, b: u64) -> u64 {
    (a as u32).checked_div(b as u32).map_or(u64::MAX, |value| signed_32(u64::from(value)))
}

fn remw(a: u64, b: u64) -> u64 {
    if b as u32 == 0 { signed_32(a) } else { (a as i32).wrapping_rem(b as i32) as i64 as u64 }
}

fn remuw(a: u64, b: u64) -> u64 {
    signed_32(u64::from((a as u32).checked_rem(b as u32).unwrap_or(a as u32)))
}

impl Machine {
    fn put(&mut self, rd: usize, value: u64) -> Step {
        if rd != 0 {
            self.regs[rd] = value;
        }
        self.pc = self.pc.wrapping_add(4);
        Step::Ran
    }

    fn jump(&mut self, rd: usize, target: u64) -> Step {
        if target % 4 != 0 {
            return Step::Fault;
        }
        if rd != 0 {
            self.regs[rd] = self.pc.wrapping_add(4);
        }
        self.pc = target;
        Step::Ran
    }

    fn branch(&mut self, taken: bool, word: u32) -> Step {
        if taken {
            self.jump(0, self.pc.wrapping_add(branch_offset(word)))
        } else {
            self.put(0, 0)
        }
    }

    fn fill(&mut self, rd: usize, read: Option<u64>) -> Step {
        match read {
            Some(value) => self.put(rd, value),
            None => Step::Fault,
        }
    }

    fn load(&mut self, word: u32, rd: usize, at: u64) -> Step {
        let space = &self.space;
        let read = match word >> 12 & 7 {
            0 => space.load(at, READ).map(|bytes| i8::from_le_bytes(bytes) as u64),
            1 => space.load(at, READ).map(|bytes| i16::from_le_bytes(bytes) as u64),
            2 => space.load(at, READ).map(|bytes| i32::from_le_bytes(bytes) as u64),
            3 => space.load(at, READ).map(u64::from_le_bytes),
            4 => space.load(at, READ).map(|bytes| u64::from(u8::from_le_bytes(bytes))),
            5 => space.load(at, READ).map(|bytes| u64::from(u16::from_le_bytes(bytes))),
            6 => space.load(at, READ).map(|bytes| u64::from(u32::from_le_bytes(bytes))),
            _ => None,
        };
        self.fill(rd, read)
    }

    fn store(&mut self, word: u32, at: u64, value: u64) -> Step {
        let stored = match word >> 12 & 7 {
            0 => self.space.store(at, (value as u8).to_le_bytes()),
            1 => self.space.store(at, (value as u16).to_le_bytes()),
            2 => self.space.store(at, (value as u32).to_le_bytes()),
            3 => self.space.store(at, value.to_le_bytes()),
            _ => None,
        };
        match stored {
            Some(()) => self.put(0, 0),
            None => Step::Fault,
        }
    }

    fn step(&mut self) -> Step {
        if self.pc % 4 != 0 {
            return Step::Fault;
        }
        let Some(word) = self.space.load(self.pc, EXECUTE).map(u32::from_le_bytes) else {
            return Step::Fault;
        };
        let rd = (word >> 7 & 31) as usize;
        let a = self.regs[(word >> 15 & 31) as usize];
        let b = self.regs[(word >> 20 & 31) as usize];
        let low = top(word, 20);
        let high = word >> 25;
        let shift = word >> 20 & 63;
        match (word & 0x7f, word >> 12 & 7) {
            (0x37, _) => self.put(rd, (word & 0xffff_f000) as i32 as u64),
            (0x17, _) => self.put(rd, self.pc.wrapping_add((word & 0xffff_f000) as i32 as u64)),
            (0x6f, _) => self.jump(rd, self.pc.wrapping_add(jump_offset(word))),
            (0x67, 0) => self.jump(rd, a.wrapping_add(low) & !1),
            (0x63, 0) => self.branch(a == b, word),
            (0x63, 1) => self.branch(a != b, word),
            (0x63, 4) => self.branch((a as i64) < b as i64, word),
            (0x63, 5) => self.branch(a as i64 >= b as i64, word),
            (0x63, 6) => self.branch(a < b, word),
            (0x63, 7) => self.branch(a >= b, word),
            (0x03, _) => self.load(word, rd, a.wrapping_add(low)),
            (0x23, _) => {
                let offset = top(word, 25) << 5 | u64::from(word >> 7 & 31);
                self.store(word, a.wrapping_add(offset), b)
            }
            (0x13, 0) => self.put(rd, a.wrapping_add(low)),
            (0x13, 1) if word >> 26 == 0 => self.put(rd, a << shift),
            (0x13, 2) => self.put(rd, u64::from((a as i64) < low as i64)),
            (0x13, 3) => self.put(rd, u64::from(a < low)),
            (0x13, 4) => self.put(rd, a ^ low),
            (0x13, 5) if word >> 26 == 0 => self.put(rd, a >> shift),
            (0x13, 5) if word >> 26 == 0x10 => self.put(rd, (a as i64 >> shift) as u64),
            (0x13, 6) => self.put(rd, a | low),
            (0x13, 7) => self.put(rd, a & low),
            (0x1b, 0) => self.put(rd, signed_32(a.wrapping_add(low))),
            (0x1b, 1) if high == 0 => self.put(rd, signed_32(a << shift)),
            (0x1b, 5) if high == 0 => self.put(rd, signed_32(u64::from(a as u32 >> shift))),
            (0x1b, 5) if high == 0x20 => self.put(rd, (a as i32 >> shift) as u64),
            (0x33, minor) => match (high, minor) {
                (0, 0) => self.put(rd, a.wrapping_add(b)),
                (0, 1) => self.put(rd, a << (b & 63)),
                (0, 2) => self.put(rd, u64::from((a as i64) < b as i64)),
                (0, 3) => self.put(rd, u64::from(a < b)),
                (0, 4) => self.put(rd, a ^ b),
                (0, 5) => self.put(rd, a >> (b & 63)),
                (0, 6) => self.put(rd, a | b),
                (0, 7) => self.put(rd, a & b),
                (1, 0) => self.put(rd, a.wrapping_mul(b)),
                (1, 1) => self.put(rd, mulh(a, b)),
                (1, 2) => self.put(rd, mulhsu(a, b)),
                (1, 3) => self.put(rd, mulhu(a, b)),
                (1, 4) => self.put(rd, div(a, b)),
                (1, 5) => self.put(rd, a.checked_div(b).unwrap_or(u64::MAX)),
                (1, 6) => self.put(rd, rem(a, b)),
                (1, 7) => self.put(rd, a.checked_rem(b).unwrap_or(a)),
                (0x20, 0) => self.put(rd, a.wrapping_sub(b)),
                (0x20, 5) => self.put(rd, (a as i64 >> (b & 63)) as u64),
                _ => Step::Fault,
            },
            (0x3b, minor) => match (high, minor) {
                (0, 0) => self.put(rd, signed_32(a.wrapping_add(b))),
                (0, 1) => self.put(rd, signed_32(a << (b & 31))),
                (0, 5) => self.put(rd, signed_32(u64::from(a as u32 >> (b & 31)))),
                (1, 0) => self.put(rd, signed_32(a.wrapping_mul(b))),
                (1, 4) => self.put(rd, divw(a, b)),
                (1, 5) => self.put(rd, divuw(a, b)),
                (1, 6) => self.put(rd, remw(a, b)),
                (1, 7) => self.put(rd, remuw(a, b)),
                (0x20, 0) => self.put(rd, signed_32(a.wrapping_sub(b))),
                (0x20, 5) => self.put(rd, (a as i32 >> (b & 31)) as u64),
                _ => Step::Fault,
            },
            (0x0f, 0) => self.put(0, 0),
            (0x73, 0) if word == 0x73 => Step::Call,
            (0x73, 2) if word >> 15 & 31 == 0 && (0xc00..=0xc02).contains(&(word >> 20)) => Step::Counter,
            _ => Step::Fault,
        }
    }
}

const ROUNDS: u64 = 5_000_000;
const CODE_PAGE: u64 = 16;
const DATA_PAGE: u64 = 256;

// The loop of bench/machine/machine.c.
const WORDS: [u32; 11] = [
    0x0074_8333, 0x0003_3283, 0x0055_0533, 0x0082_c2b3, 0x0012_9293, 0x0053_3023, 0x0123_83b3, 0x0133_f3b3,
    0xfff4_0413, 0xfc04_1ee3, 0x0000_0073,
];

fn machine(pages: u64) -> Machine {
    let mut space = Space { pages: Vec::new() };
    space.map(CODE_PAGE, 1, READ | WRITE);
    for (index, word) in WORDS.into_iter().enumerate() {
        space.store(CODE_PAGE * PAGE_SIZE + 4 * index as u64, word.to_le_bytes()).expect("the page is there");
    }
    space.pages[0].rights = READ | EXECUTE;
    space.map(DATA_PAGE, pages, READ | WRITE);
    let mut regs = [0; 32];
    regs[8] = ROUNDS;
    regs[9] = DATA_PAGE * PAGE_SIZE;
    regs[18] = PAGE_SIZE + 8;
    regs[19] = pages * PAGE_SIZE - 8;
    Machine { regs, pc: CODE_PAGE * PAGE_SIZE, space }
}

fn main() {
    for pages in [4, 256] {
        let mut machine = machine(pages);
        let start = Instant::now();
        let mut steps = 1u64;
        while machine.step() == Step::Ran {
            steps += 1;
        }
        let speed = (steps - 1) as f64 / start.elapsed().as_secs_f64() / 1e6;
        println!("{pages} pages: {speed:.1} million a second, {steps} steps, sum {}", machine.regs[10]);
    }
}
