//! The inputs: a full book of 32 valid sheets of 256 frames, grown by a seeded generator, and what is made of it.
use crate::plain::{self, Frame, PLACES, SHEETS};
use std::ops::Range;

/// A small generator of numbers (xorshift).
pub struct Random(pub u64);

impl Random {
    pub fn below(&mut self, n: usize) -> usize {
        self.0 ^= self.0 << 13;
        self.0 ^= self.0 >> 7;
        self.0 ^= self.0 << 17;
        (self.0 >> 20) as usize % n
    }
}

fn frame(kind: u8, t: u8, name: u16, load: u32) -> Frame {
    Frame {
        kind,
        t,
        name,
        load,
    }
}

/// The name of the k-th function.
pub fn function(k: usize) -> u16 {
    (100 + 7 * k) as u16
}

/// The types of the k-th function's parameters, and what it returns.
fn head(k: usize) -> (Vec<u8>, u8) {
    (
        (0..k % 5).map(|j| ((k + j) % 4 + 1) as u8).collect(),
        (k % 5 + 1) as u8,
    )
}

/// A sheet that grows.
struct Draft<'a> {
    frames: Vec<Frame>,
    variables: Vec<(u16, u8)>,
    next: u16,
    returns: u8,
    // the functions that it calls
    callees: Range<usize>,
    random: &'a mut Random,
}

impl Draft<'_> {
    fn push(&mut self, kind: u8, t: u8, name: u16, load: u32) {
        self.frames.push(frame(kind, t, name, load));
    }

    fn fresh_name(&mut self) -> u16 {
        self.next += 1;
        1000 + 37 * self.next
    }

    /// A declared variable of the type.
    fn variable(&mut self, t: u8) -> Option<u16> {
        let of: Vec<u16> = self
            .variables
            .iter()
            .filter(|v| v.1 == t)
            .map(|v| v.0)
            .collect();
        if of.is_empty() {
            None
        } else {
            Some(of[self.random.below(of.len())])
        }
    }

    fn leaf(&mut self, t: u8) {
        if let Some(name) = self.variable(t) {
            if self.random.below(3) > 0 {
                return self.push(0x25, 0, name, 0);
            }
        }
        match t {
            1 => self.push(0x20, 0, 0, 0),
            2 => self.push(0x22, 0, 0, 7),
            3 => self.push(0x23, 0, 0, 7),
            _ => self.push(0x24, 0, 0, 7),
        }
    }

    fn call(&mut self, k: usize, depth: usize) {
        let (params, _) = head(k);
        for &t in &params {
            self.expression(t, depth - 1);
        }
        self.push(0x26, 0, function(k), params.len() as u32);
    }

    fn expression(&mut self, t: u8, depth: usize) {
        if depth == 0 {
            return self.leaf(t);
        }
        match (self.random.below(6), t) {
            (0, _) => {
                let k = if self.callees.len() == 1 {
                    self.callees.start
                } else {
                    self.random.below(SHEETS / 5) * 5 + usize::from(t) - 1
                };
                if head(k).1 == t && self.callees.contains(&k) {
                    self.call(k, depth)
                } else {
                    self.leaf(t)
                }
            }
            (1, 2 | 3) => match self.variable(t) {
                Some(name) => self.push(0x27, 0, name, 0),
                None => self.leaf(t),
            },
            (2, _) => self.leaf(t),
            (_, 1) => {
                let of = 2 + self.random.below(2) as u8;
                self.expression(of, depth - 1);
                self.expression(of, depth - 1);
                let kind = 0x34 + self.random.below(6) as u8;
                self.push(kind, 0, 0, 0);
            }
            (_, 4) => {
                self.expression(4, depth - 1);
                self.expression(4, depth - 1);
                self.push(0x30, 0, 0, 0);
            }
            _ => {
                self.expression(t, depth - 1);
                self.expression(t, depth - 1);
                let kind = 0x30 + self.random.below(4) as u8;
                self.push(kind, 0, 0, 0);
            }
        }
    }

    fn a_type(&mut self) -> u8 {
        self.random.below(4) as u8 + 1
    }

    fn statement(&mut self, depth: usize) {
        let t = self.a_type();
        match self.random.below(8) {
            0 => {
                self.expression(t, 2);
                let name = self.fresh_name();
                self.push(0x13, t, name, 0);
                self.variables.push((name, t));
            }
            1 => {
                self.push(0x11, t, 0, 2);
                for _ in 0..2 {
                    let name = self.fresh_name();
                    self.push(0x12, 0, name, 0);
                    self.variables.push((name, t));
                }
            }
            2 if depth > 0 => {
                self.expression(1, 1);
                self.push(0x18, 0, 0, 0);
                self.block(depth - 1);
            }
            3 if depth > 0 => {
                self.expression(1, 1);
                self.push(0x19, 0, 0, 0);
                self.block(depth - 1);
                self.block(depth - 1);
            }
            _ => {
                self.expression(t, 2);
                if let Some(name) = self.variable(t) {
                    self.push(0x3C, 0, name, 0);
                }
                self.push(0x10, 0, 0, 0);
            }
        }
    }

    fn block(&mut self, depth: usize) {
        let standing = self.variables.len();
        self.push(0x16, 0, 0, 0);
        for _ in 0..1 + self.random.below(2) {
            self.statement(depth);
        }
        self.push(0x17, 0, 0, 0);
        self.variables.truncate(standing);
    }

    /// Fills the sheet up to its last frames: a return and END.
    fn end(&mut self) {
        let last = if self.returns == 5 { 2 } else { 3 };
        if (PLACES - last - self.frames.len()) % 2 == 1 {
            let (a, b) = (self.fresh_name(), self.fresh_name());
            self.push(0x11, 1, 0, 2);
            self.push(0x12, 0, a, 0);
            self.push(0x12, 0, b, 0);
        }
        while self.frames.len() < PLACES - last {
            self.push(0x16, 0, 0, 0);
            self.push(0x17, 0, 0, 0);
        }
        if self.returns == 5 {
            self.push(0x14, 0, 0, 0);
        } else {
            self.leaf(self.returns);
            self.push(0x15, 0, 0, 0);
        }
        self.push(0x03, 0, 0, 0);
    }
}

/// The k-th sheet: 256 frames.
fn sheet(k: usize, callees: Range<usize>, random: &mut Random) -> Vec<Frame> {
    let (params, returns) = head(k);
    let mut draft = Draft {
        frames: Vec::new(),
        variables: Vec::new(),
        next: 0,
        returns,
        callees,
        random,
    };
    draft.push(0x01, returns, function(k), params.len() as u32);
    for &t in &params {
        let name = draft.fresh_name();
        draft.push(0x02, t, name, 0);
        draft.variables.push((name, t));
    }
    loop {
        let (frames, variables) = (draft.frames.len(), draft.variables.len());
        draft.statement(2);
        if draft.frames.len() > PLACES - 6 {
            draft.frames.truncate(frames);
            draft.variables.truncate(variables);
            if frames > PLACES - 24 {
                break;
            }
        }
    }
    draft.end();
    draft.frames
}

/// A full book of valid sheets that call one another.
pub fn full_book(seed: u64) -> Vec<Frame> {
    let mut random = Random(seed);
    (0..SHEETS)
        .flat_map(|k| sheet(k, 0..SHEETS, &mut random))
        .collect()
}

/// A full book of sheets that call only themselves, so that any of them are a valid book.
pub fn single_sheets(seed: u64) -> Vec<Frame> {
    let mut random = Random(seed);
    (0..SHEETS)
        .flat_map(|k| sheet(k, k..k + 1, &mut random))
        .collect()
}

/// The text of a book's frames.
pub fn texts_of(frames: &[Frame]) -> Vec<u8> {
    let mut text = vec![0; 17 * frames.len()];
    plain::write(frames, &mut text).expect("there is room");
    text
}

/// The same with some frames altered, so that sheets are refused or faulty.
pub fn damaged(sheets: &[Frame], seed: u64) -> Vec<Frame> {
    let mut random = Random(seed);
    let mut frames = sheets.to_vec();
    for _ in 0..1 + random.below(20) {
        let i = random.below(frames.len());
        let j = random.below(frames.len());
        match random.below(4) {
            0 => frames[i] = frames[j],
            1 => frames[i].name = frames[j].name,
            2 => frames[i].load = random.below(20) as u32,
            _ => frames[i].kind = frames[j].kind,
        }
    }
    frames
}
