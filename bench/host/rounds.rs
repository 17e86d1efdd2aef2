//! The same rounds as the library's exports, over the plain version.
use crate::plain::{self, Head, Verdict};
use crate::plain::{
    AREA, Book, Checked, Fault, Formed, Frame, Levels, PLACES, SHEETS, Walker, heads_of, signature,
};

const TEXT: usize = 17 * PLACES;

fn text_of(texts: &[u8], round: usize) -> &[u8] {
    let start = round % SHEETS * TEXT;
    texts.get(start..start + TEXT).unwrap_or(&[])
}

fn sheet_of(sheets: &[Frame], round: usize) -> &[Frame] {
    let start = round % SHEETS * PLACES;
    sheets.get(start..start + PLACES).unwrap_or(&[])
}

#[inline(never)]
pub fn read(texts: &[u8], rounds: usize, out: &mut [Frame]) -> usize {
    let mut frames = [Frame::default(); PLACES];
    let mut sum = 0usize;
    for round in 0..rounds {
        sum = sum.wrapping_add(plain::read(text_of(texts, round), &mut frames).unwrap_or(0));
    }
    out[..PLACES].copy_from_slice(&frames);
    sum
}

#[inline(never)]
pub fn write(sheets: &[Frame], rounds: usize, text: &mut [u8]) -> usize {
    let mut sum = 0usize;
    for round in 0..rounds {
        sum = sum.wrapping_add(plain::write(sheet_of(sheets, round), text).unwrap_or(0));
    }
    sum
}

#[inline(never)]
pub fn form(sheets: &[Frame], rounds: usize) -> usize {
    let mut formed = Formed::new();
    let mut sum = 0usize;
    for round in 0..rounds {
        let _ = plain::form(sheet_of(sheets, round), &mut formed);
        sum = sum.wrapping_add(formed.frames().len());
    }
    sum
}

#[inline(never)]
pub fn examine(sheets: &[Frame], rounds: usize, column: &mut [u8]) -> usize {
    let mut formed = Formed::new();
    let mut all = Vec::new();
    for k in 0..SHEETS {
        let _ = plain::form(sheet_of(sheets, k), &mut formed);
        all.push(signature(formed.frames()));
    }
    let heads = heads_of(&all);
    let mut variables = Levels::new();
    let mut walker = Walker::new();
    let mut sum = 0usize;
    for round in 0..rounds {
        let verdict = walker.examine(
            sheet_of(sheets, round),
            &all[round % SHEETS],
            column,
            &heads,
            &mut variables,
        );
        sum = sum.wrapping_add(usize::from(verdict == Verdict::Valid));
    }
    sum
}

/// A book with its areas, a formed sheet to put, and the stores of its checks.
struct Yard {
    book: Book,
    frames: Vec<Frame>,
    column: Vec<u8>,
    formed: Formed,
    heads: Levels<Head>,
    variables: Levels<u8>,
    done: usize,
    walked: usize,
    fault: Option<Fault>,
}

impl Yard {
    fn new() -> Yard {
        Yard {
            book: Book::new(),
            frames: vec![Frame::default(); AREA],
            column: vec![0; AREA],
            formed: Formed::new(),
            heads: Levels::new(),
            variables: Levels::new(),
            done: 0,
            walked: 0,
            fault: None,
        }
    }

    fn count(&mut self, answer: Result<(), Fault>) {
        self.done = self.done.wrapping_add(usize::from(answer.is_ok()));
    }

    fn fresh(&mut self) {
        let answer = self.book.fresh(&mut self.frames, &mut self.column);
        self.count(answer);
    }

    /// The host writes from outside, so that there is something to empty.
    fn alter(&mut self, round: usize) {
        self.frames[round % AREA].kind = 1;
        self.column[round % AREA] = 1;
    }

    fn put(&mut self, sheet: u8) {
        let answer = self
            .book
            .put(sheet, &self.formed, &mut self.frames, &mut self.column);
        self.count(answer);
    }

    fn form_and_put(&mut self, sheet: u8, frames: &[Frame]) {
        if plain::form(frames, &mut self.formed).is_ok() {
            self.put(sheet);
        }
    }

    fn fill(&mut self, sheets: &[Frame], count: u8, first: usize) {
        self.fresh();
        for k in 0..count {
            self.form_and_put(k, sheet_of(sheets, first.wrapping_add(usize::from(k))));
        }
    }

    fn check(&mut self) {
        if let Ok(Checked { walked, fault }) = self.book.check(
            &self.frames,
            &mut self.column,
            &mut self.heads,
            &mut self.variables,
        ) {
            self.done = self.done.wrapping_add(1);
            self.walked = self.walked.wrapping_add(walked);
            self.fault = fault;
        }
    }

    fn tell(&self) -> [usize; 6] {
        let f = self.fault.unwrap_or(Fault {
            number: 0,
            layer: 0,
            sheet: 0,
            place: 0,
        });
        [
            self.done,
            self.walked,
            f.number.into(),
            f.layer.into(),
            f.sheet.into(),
            f.place,
        ]
    }
}

#[inline(never)]
pub fn book(
    sheets: &[Frame],
    edits: bool,
    count: u8,
    checks: bool,
    rounds: usize,
    column: &mut [u8],
) -> [usize; 6] {
    let mut yard = Yard::new();
    if edits {
        yard.fill(sheets, count, 0);
        yard.check();
        for round in 0..rounds {
            let k = (round % SHEETS) as u8;
            if k < count {
                yard.form_and_put(k, sheet_of(sheets, round));
            }
            if checks {
                yard.check();
            }
        }
    } else {
        for round in 0..rounds {
            yard.fill(sheets, count, round.wrapping_mul(usize::from(count)));
            if checks {
                yard.check();
            }
        }
    }
    column.copy_from_slice(&yard.column);
    yard.tell()
}

#[inline(never)]
pub fn put(sheets: &[Frame], other: &[Frame], rounds: usize, column: &mut [u8]) -> [usize; 6] {
    let mut yard = Yard::new();
    yard.fill(sheets, 32, 0);
    yard.check();
    let mut first = Formed::new();
    let mut second = Formed::new();
    let _ = plain::form(other, &mut first);
    let _ = plain::form(sheet_of(sheets, 0), &mut second);
    for round in 0..rounds {
        let chosen = if round % 2 == 0 { &first } else { &second };
        let answer = yard.book.put(0, chosen, &mut yard.frames, &mut yard.column);
        yard.count(answer);
    }
    column.copy_from_slice(&yard.column);
    yard.tell()
}

#[inline(never)]
pub fn clear(sheets: &[Frame], rounds: usize) -> [usize; 6] {
    let mut yard = Yard::new();
    yard.fill(sheets, 32, 0);
    yard.check();
    let _ = plain::form(sheet_of(sheets, 0), &mut yard.formed);
    for _ in 0..rounds {
        let answer = yard.book.clear(0, &mut yard.frames, &mut yard.column);
        yard.count(answer);
        yard.put(0);
    }
    yard.tell()
}

#[inline(never)]
pub fn post(texts: &[u8], rounds: usize) -> [usize; 6] {
    let mut yard = Yard::new();
    let mut room = [Frame::default(); 257];
    for round in 0..rounds {
        let answer = yard.book.post(
            text_of(texts, round),
            (round % SHEETS) as u8,
            &mut room,
            &mut yard.frames,
            &mut yard.column,
        );
        yard.count(answer);
    }
    yard.tell()
}

#[inline(never)]
pub fn fresh(rounds: usize) -> [usize; 6] {
    let mut yard = Yard::new();
    for round in 0..rounds {
        yard.alter(round);
        yard.fresh();
        yard.walked = yard
            .walked
            .wrapping_add(usize::from(yard.frames[round % 1024 * 7 % AREA].kind));
    }
    yard.tell()
}

#[inline(never)]
pub fn types(sheets: &[Frame], rounds: usize) -> usize {
    let mut yard = Yard::new();
    yard.fill(sheets, 32, 0);
    yard.check();
    let mut sum = 0usize;
    for _ in 0..rounds {
        let Ok(reader) = yard.book.reader(&yard.frames, &yard.column) else {
            return 0;
        };
        for place in 0..AREA {
            let asked = reader.type_at((place / PLACES) as u8, place % PLACES);
            sum = sum.wrapping_add(usize::from(asked.is_ok_and(|t| t.is_some())));
        }
    }
    sum
}
