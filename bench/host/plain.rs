//! The calls of the yard book written plainly in Rust, as one would without contracts: the measure for the library.
//! Same answers, same areas left; panics on nothing a host can hand over, by Rust's own bounds checks.

/// A frame, as it is lent across the border.
#[repr(C)]
#[derive(Clone, Copy, PartialEq, Eq, Debug, Default)]
pub struct Frame {
    pub kind: u8,
    pub t: u8,
    pub name: u16,
    pub load: u32,
}

pub const PLACES: usize = 256;
pub const SHEETS: usize = 32;
pub const AREA: usize = SHEETS * PLACES;
const LINE: usize = 17;
const DEEPEST: usize = 32;
const CALL: u8 = 0x26;

/// A refusal in numbers: number, layer, sheet, place.
#[derive(Clone, Copy, PartialEq, Eq, Debug)]
pub struct Fault {
    pub number: u8,
    pub layer: u8,
    pub sheet: u8,
    pub place: usize,
}

fn text_fault(number: u8, place: usize) -> Fault {
    Fault {
        number,
        layer: 1,
        sheet: 255,
        place,
    }
}

fn form_fault(number: u8, place: usize) -> Fault {
    Fault {
        number,
        layer: 2,
        sheet: 255,
        place,
    }
}

fn book_fault(number: u8, sheet: u8, place: usize) -> Fault {
    Fault {
        number,
        layer: 3,
        sheet,
        place,
    }
}

// ---- text

/// The digit of each byte; 16 for one that is none.
static DIGIT: [u8; 256] = {
    let mut digits = [16; 256];
    let mut d = 0;
    while d < 16 {
        digits[b"0123456789ABCDEF"[d] as usize] = d as u8;
        d += 1;
    }
    digits
};

fn read_line(line: &[u8]) -> Option<Frame> {
    let line: &[u8; LINE] = line.try_into().ok()?;
    if line[LINE - 1] != b'\n' {
        return None;
    }
    let mut n = 0u64;
    for b in &line[..LINE - 1] {
        let d = DIGIT[usize::from(*b)];
        if d > 15 {
            return None;
        }
        n = n << 4 | u64::from(d);
    }
    Some(Frame {
        kind: (n >> 56) as u8,
        t: (n >> 48) as u8,
        name: (n >> 32) as u16,
        load: n as u32,
    })
}

/// Reads line by line into the area.
pub fn read(text: &[u8], frames: &mut [Frame]) -> Result<usize, Fault> {
    let mut count = 0;
    for line in text.chunks(LINE) {
        let place = frames.get_mut(count).ok_or(text_fault(12, count))?;
        *place = read_line(line).ok_or(text_fault(11, count))?;
        count += 1;
    }
    Ok(count)
}

fn put_line(line: &mut [u8], f: &Frame) {
    const DIGITS: &[u8; 16] = b"0123456789ABCDEF";
    let n = u64::from(f.kind) << 56
        | u64::from(f.t) << 48
        | u64::from(f.name) << 32
        | u64::from(f.load);
    for (i, b) in line[..LINE - 1].iter_mut().enumerate() {
        *b = DIGITS[(n >> (60 - 4 * i)) as usize & 15];
    }
    line[LINE - 1] = b'\n';
}

/// Writes a line for each frame.
pub fn write(frames: &[Frame], text: &mut [u8]) -> Result<usize, Fault> {
    let length = LINE * frames.len();
    let text = text.get_mut(..length).ok_or(text_fault(13, 0))?;
    for (line, f) in text.chunks_exact_mut(LINE).zip(frames) {
        put_line(line, f);
    }
    Ok(length)
}

// ---- form

#[derive(Clone, Copy, PartialEq, Eq)]
enum Thing {
    Block,
    Loop,
    Choice(u8),
}

/// The unfinished things, the innermost last.
struct Things {
    stack: [Thing; DEEPEST],
    depth: usize,
}

impl Things {
    fn new() -> Self {
        Things {
            stack: [Thing::Block; DEEPEST],
            depth: 0,
        }
    }

    fn innermost(&self) -> Option<Thing> {
        self.stack[..self.depth].last().copied()
    }

    fn begin(&mut self, thing: Thing) -> Option<()> {
        *self.stack.get_mut(self.depth)? = thing;
        self.depth += 1;
        Some(())
    }

    fn finish(&mut self) {
        while let Some(thing) = self.innermost() {
            match thing {
                Thing::Block => return,
                Thing::Choice(2) => {
                    self.stack[self.depth - 1] = Thing::Choice(1);
                    return;
                }
                Thing::Loop | Thing::Choice(_) => self.depth -= 1,
            }
        }
    }

    fn close(&mut self) {
        self.depth -= 1;
        self.finish();
    }
}

#[derive(Clone, Copy)]
enum Role {
    Head,
    Param,
    End,
    Operand(usize),
    Call,
    Statement(usize),
    Decl,
    Name,
    Open,
    Close,
    While,
    If,
}

/// A kind's role, and the ranges of its fields: t, name, load.
#[derive(Clone, Copy)]
struct Row {
    role: Role,
    t: (u8, u8),
    name: u16,
    load: (u32, u32),
}

const fn row(role: Role, t: (u8, u8), name: u16, load: (u32, u32)) -> Option<Row> {
    Some(Row {
        role,
        t,
        name,
        load,
    })
}

static ROWS: [Option<Row>; 256] = {
    const NONE: (u8, u8) = (0, 0);
    const VALUE: (u8, u8) = (1, 4);
    const ANY: u16 = u16::MAX;
    let mut rows = [None; 256];
    rows[0x01] = row(Role::Head, (1, 5), ANY, (0, 16));
    rows[0x02] = row(Role::Param, VALUE, ANY, (0, 0));
    rows[0x03] = row(Role::End, NONE, 0, (0, 0));
    rows[0x10] = row(Role::Statement(1), NONE, 0, (0, 0));
    rows[0x11] = row(Role::Decl, VALUE, 0, (1, 16));
    rows[0x12] = row(Role::Name, NONE, ANY, (0, 0));
    rows[0x13] = row(Role::Statement(1), VALUE, ANY, (0, 0));
    rows[0x14] = row(Role::Statement(0), NONE, 0, (0, 0));
    rows[0x15] = row(Role::Statement(1), NONE, 0, (0, 0));
    rows[0x16] = row(Role::Open, NONE, 0, (0, 0));
    rows[0x17] = row(Role::Close, NONE, 0, (0, 0));
    rows[0x18] = row(Role::While, NONE, 0, (0, 0));
    rows[0x19] = row(Role::If, NONE, 0, (0, 0));
    rows[0x20] = row(Role::Operand(0), NONE, 0, (0, 0));
    rows[0x21] = rows[0x20];
    rows[0x22] = row(Role::Operand(0), NONE, 0, (0, u32::MAX));
    rows[0x23] = rows[0x22];
    rows[0x24] = rows[0x22];
    rows[0x25] = row(Role::Operand(0), NONE, ANY, (0, 0));
    rows[0x26] = row(Role::Call, NONE, ANY, (0, 16));
    let mut kind = 0x27;
    while kind <= 0x2A {
        rows[kind] = rows[0x25];
        kind += 1;
    }
    kind = 0x30;
    while kind <= 0x3B {
        rows[kind] = row(Role::Operand(2), NONE, 0, (0, 0));
        kind += 1;
    }
    rows[0x3C] = row(Role::Operand(1), NONE, ANY, (0, 0));
    rows
};

/// The frame's role, and whether its fields are within their ranges.
fn role(f: &Frame) -> Option<(Role, bool)> {
    let row = ROWS[usize::from(f.kind)]?;
    let suits = row.t.0 <= f.t
        && f.t <= row.t.1
        && f.name <= row.name
        && row.load.0 <= f.load
        && f.load <= row.load.1;
    let role = if let Role::Call = row.role {
        Role::Operand(f.load as usize)
    } else {
        row.role
    };
    Some((role, suits))
}

#[derive(Clone, Copy, PartialEq, Eq)]
enum Stage {
    Start,
    Params(u32),
    Names(u32),
    Body,
    Ended,
}

fn params(left: u32) -> Stage {
    if left == 0 {
        Stage::Body
    } else {
        Stage::Params(left)
    }
}

fn names(left: u32, things: &mut Things) -> Stage {
    if left == 0 {
        things.finish();
        Stage::Body
    } else {
        Stage::Names(left)
    }
}

/// Whether the frames have the form of a sheet.
fn judge(frames: &[Frame]) -> Result<(), Fault> {
    if frames.len() > PLACES {
        return Err(form_fault(20, PLACES));
    }
    let mut things = Things::new();
    let mut stage = Stage::Start;
    let mut ready = 0;
    for (i, f) in frames.iter().enumerate() {
        if stage == Stage::Ended {
            return Err(form_fault(26, i));
        }
        let (role, suits) = role(f).ok_or(form_fault(21, i))?;
        if !suits {
            return Err(form_fault(22, i));
        }
        let mut begin = |thing| things.begin(thing).ok_or(form_fault(24, i));
        match (stage, role) {
            (Stage::Start, Role::Head) => stage = params(f.load),
            (Stage::Params(left), Role::Param) => stage = params(left - 1),
            (Stage::Names(left), Role::Name) => stage = names(left - 1, &mut things),
            (Stage::Body, Role::Operand(n)) if ready >= n => ready = ready - n + 1,
            (Stage::Body, Role::Statement(n)) if ready == n => {
                ready = 0;
                things.finish();
            }
            (Stage::Body, Role::Decl) if ready == 0 => stage = names(f.load, &mut things),
            (Stage::Body, Role::While) if ready == 1 => {
                begin(Thing::Loop)?;
                ready = 0;
            }
            (Stage::Body, Role::If) if ready == 1 => {
                begin(Thing::Choice(2))?;
                ready = 0;
            }
            (Stage::Body, Role::Open) if ready == 0 => begin(Thing::Block)?,
            (Stage::Body, Role::Close)
                if ready == 0 && things.innermost() == Some(Thing::Block) =>
            {
                things.close()
            }
            (Stage::Body, Role::End) if ready == 0 && things.depth == 0 => stage = Stage::Ended,
            _ => return Err(form_fault(23, i)),
        }
    }
    if stage == Stage::Ended {
        Ok(())
    } else {
        Err(form_fault(25, frames.len()))
    }
}

/// A sheet that went through `form`: its frames, and blank ones after them.
pub struct Formed {
    frames: [Frame; PLACES],
    count: usize,
}

impl Formed {
    pub fn new() -> Self {
        let mut frames = [Frame::default(); PLACES];
        frames[0] = Frame {
            kind: 0x01,
            t: 5,
            ..Frame::default()
        };
        frames[1] = Frame {
            kind: 0x03,
            ..Frame::default()
        };
        Formed { frames, count: 2 }
    }

    pub fn frames(&self) -> &[Frame] {
        &self.frames[..self.count]
    }
}

/// Fills the sheet with the frames if they have the form of one.
pub fn form(frames: &[Frame], into: &mut Formed) -> Result<(), Fault> {
    judge(frames)?;
    into.frames[..frames.len()].copy_from_slice(frames);
    into.frames[frames.len()..].fill(Frame::default());
    into.count = frames.len();
    Ok(())
}

// ---- heads and variables

/// What a function takes and returns, by the codes of the types.
#[derive(Clone, Copy, PartialEq, Eq, Debug)]
pub struct Head {
    params: [u8; 16],
    count: u8,
    returns: u8,
}

impl Head {
    fn params(&self) -> &[u8] {
        &self.params[..usize::from(self.count)]
    }
}

/// The name and head of a sheet's definition.
#[derive(Clone, Copy, PartialEq, Eq, Debug)]
pub struct Signature {
    pub name: u16,
    pub head: Head,
}

fn param_frames(frames: &[Frame]) -> &[Frame] {
    &frames[1..=frames[0].load as usize]
}

/// The signature of frames that have the form of a sheet.
pub fn signature(frames: &[Frame]) -> Signature {
    let mut head = Head {
        params: [0; 16],
        count: frames[0].load as u8,
        returns: frames[0].t,
    };
    for (t, f) in head.params.iter_mut().zip(param_frames(frames)) {
        *t = f.t;
    }
    Signature {
        name: frames[0].name,
        head,
    }
}

/// The place of the first parameter whose name an earlier one has.
fn repeated_parameter(frames: &[Frame]) -> Option<usize> {
    let params = param_frames(frames);
    (1..params.len())
        .find(|&i| params[..i].iter().any(|f| f.name == params[i].name))
        .map(|i| i + 1)
}

/// A stack of levels of names, searched from the newest.
pub struct Levels<V> {
    entries: Vec<(u16, V)>,
    starts: Vec<usize>,
}

impl<V: Copy> Levels<V> {
    pub fn new() -> Self {
        Levels {
            entries: Vec::with_capacity(PLACES),
            starts: Vec::with_capacity(DEEPEST + 1),
        }
    }

    fn wipe(&mut self) {
        self.entries.clear();
        self.starts.clear();
    }

    fn enter(&mut self) {
        self.starts.push(self.entries.len());
    }

    fn leave(&mut self) {
        if let Some(start) = self.starts.pop() {
            self.entries.truncate(start);
        }
    }

    fn declare(&mut self, name: u16, value: V) {
        self.entries.push((name, value));
    }

    pub fn look(&self, name: u16) -> Option<V> {
        self.entries.iter().rev().find(|e| e.0 == name).map(|e| e.1)
    }

    fn here(&self, name: u16) -> bool {
        let start = self.starts.last().copied().unwrap_or(0);
        self.entries[start..].iter().any(|e| e.0 == name)
    }
}

// ---- the walk

const BOOL: u8 = 1;
const INT: u8 = 2;
const DOUBLE: u8 = 3;
const STRING: u8 = 4;
const VOID: u8 = 5;

#[derive(Clone, Copy, PartialEq, Eq, Debug)]
pub enum Verdict {
    Valid,
    /// The number of a violation, and its place.
    Broken(u8, usize),
    Altered,
}

/// The names of a declaration that are to come.
struct Declaration {
    t: u8,
    left: u32,
    first: usize,
}

/// The walk over one sheet; the vector of operands is kept from walk to walk.
pub struct Walker {
    operands: Vec<u8>,
}

fn binary(kind: u8, a: u8, b: u8) -> Option<u8> {
    if a != b {
        return None;
    }
    match kind {
        0x30 => (INT..=STRING).contains(&a).then_some(a),
        0x31..=0x33 => (a == INT || a == DOUBLE).then_some(a),
        0x34 | 0x35 | 0x38 | 0x39 => (a == INT || a == DOUBLE).then_some(BOOL),
        0x36 | 0x37 => (BOOL..=DOUBLE).contains(&a).then_some(BOOL),
        _ => (a == BOOL).then_some(BOOL),
    }
}

fn alone(things: &Things) -> bool {
    !matches!(things.innermost(), None | Some(Thing::Block))
}

impl Walker {
    pub fn new() -> Self {
        Walker {
            operands: Vec::with_capacity(PLACES),
        }
    }

    fn newest(&self) -> u8 {
        self.operands.last().copied().unwrap_or(VOID)
    }

    /// The type of the expression that ends at the frame, whose operands it takes.
    fn expression(
        &mut self,
        f: &Frame,
        heads: &Levels<Head>,
        variables: &Levels<u8>,
    ) -> Result<u8, u8> {
        let variable = || variables.look(f.name).ok_or(51);
        Ok(match f.kind {
            0x20 | 0x21 => BOOL,
            0x22 => INT,
            0x23 => DOUBLE,
            0x24 => STRING,
            0x25 => variable()?,
            CALL => {
                let head = heads.look(f.name).ok_or(52)?;
                if f.load as usize != head.params().len() {
                    return Err(53);
                }
                let first = self.operands.len() - head.params().len();
                if &self.operands[first..] != head.params() {
                    return Err(54);
                }
                self.operands.truncate(first);
                head.returns
            }
            0x27..=0x2A => match variable()? {
                t @ (INT | DOUBLE) => t,
                _ => return Err(55),
            },
            0x30..=0x3B => {
                let b = self.operands.pop().unwrap_or(VOID);
                let a = self.operands.pop().unwrap_or(VOID);
                binary(f.kind, a, b).ok_or(55)?
            }
            _ => {
                let t = variable()?;
                if self.operands.pop() != Some(t) {
                    return Err(56);
                }
                t
            }
        })
    }

    /// Walks frames that have the form of a sheet with no parameter twice; the column has 0 everywhere before.
    fn walk(
        &mut self,
        frames: &[Frame],
        column: &mut [u8],
        heads: &Levels<Head>,
        variables: &mut Levels<u8>,
    ) -> Result<(), (u8, usize)> {
        self.operands.clear();
        variables.wipe();
        let mut things = Things::new();
        let mut pending = Declaration {
            t: 0,
            left: 0,
            first: 0,
        };
        let returns = frames[0].t;
        for (i, f) in frames.iter().enumerate() {
            let broken = |number| Err((number, i));
            match f.kind {
                0x01 => variables.enter(),
                0x02 => variables.declare(f.name, f.t),
                0x10 => {
                    self.operands.pop();
                    things.finish();
                }
                0x11 => {
                    pending = Declaration {
                        t: f.t,
                        left: f.load,
                        first: i + 1,
                    }
                }
                0x12 => {
                    let alone = alone(&things);
                    let earlier = &frames[pending.first..i];
                    if variables.here(f.name) || alone && earlier.iter().any(|e| e.name == f.name) {
                        return broken(58);
                    }
                    if !alone {
                        variables.declare(f.name, pending.t);
                    }
                    pending.left -= 1;
                    if pending.left == 0 {
                        things.finish();
                    }
                }
                0x13 => {
                    if self.newest() != f.t {
                        return broken(57);
                    }
                    if variables.here(f.name) {
                        return broken(58);
                    }
                    if !alone(&things) {
                        variables.declare(f.name, f.t);
                    }
                    self.operands.pop();
                    things.finish();
                }
                0x14 => {
                    if returns != VOID {
                        return broken(59);
                    }
                    things.finish();
                }
                0x15 => {
                    if self.newest() != returns {
                        return broken(59);
                    }
                    self.operands.pop();
                    things.finish();
                }
                0x16 => {
                    variables.enter();
                    let _ = things.begin(Thing::Block);
                }
                0x17 => {
                    variables.leave();
                    things.close();
                }
                0x18 | 0x19 => {
                    if self.newest() != BOOL {
                        return broken(60);
                    }
                    self.operands.pop();
                    let _ = things.begin(if f.kind == 0x18 {
                        Thing::Loop
                    } else {
                        Thing::Choice(2)
                    });
                }
                0x20.. => match self.expression(f, heads, variables) {
                    Ok(t) => {
                        column[i] = t;
                        self.operands.push(t);
                    }
                    Err(number) => return broken(number),
                },
                _ => {}
            }
        }
        Ok(())
    }

    /// Examines a sheet that its record gives this signature: its types into its column.
    pub fn examine(
        &mut self,
        frames: &[Frame],
        recorded: &Signature,
        column: &mut [u8],
        heads: &Levels<Head>,
        variables: &mut Levels<u8>,
    ) -> Verdict {
        column.fill(0);
        if judge(frames).is_err()
            || signature(frames) != *recorded
            || repeated_parameter(frames).is_some()
        {
            return Verdict::Altered;
        }
        match self.walk(frames, column, heads, variables) {
            Ok(()) => Verdict::Valid,
            Err((number, place)) => {
                column.fill(0);
                Verdict::Broken(number, place)
            }
        }
    }
}

// ---- the book

#[derive(Clone, Copy)]
struct Record {
    signature: Signature,
    end: u8,
    due: bool,
    verdict: Verdict,
}

/// A book of 32 sheets over areas that each call is lent.
pub struct Book {
    records: [Option<Record>; SHEETS],
    walker: Walker,
    valid: bool,
}

/// How many sheets a check walked, and the fault of the lowest faulty one.
#[derive(Clone, Copy, PartialEq, Eq, Debug)]
pub struct Checked {
    pub walked: usize,
    pub fault: Option<Fault>,
}

impl Book {
    pub fn new() -> Self {
        Book {
            records: [None; SHEETS],
            walker: Walker::new(),
            valid: false,
        }
    }

    pub fn fresh(&mut self, frames: &mut [Frame], column: &mut [u8]) -> Result<(), Fault> {
        if frames.len() != AREA || column.len() != AREA {
            return Err(book_fault(32, 255, 0));
        }
        frames.fill(Frame::default());
        column.fill(0);
        self.records = [None; SHEETS];
        self.valid = false;
        Ok(())
    }

    /// A reader of the types of a valid book.
    pub fn reader<'a>(
        &'a self,
        frames: &'a [Frame],
        column: &'a [u8],
    ) -> Result<Reader<'a>, Fault> {
        if frames.len() != AREA || column.len() != AREA {
            return Err(book_fault(32, 255, 0));
        }
        if !self.valid {
            return Err(book_fault(36, 255, 0));
        }
        Ok(Reader {
            book: self,
            frames,
            column,
        })
    }

    /// Marks the sheets that call a name whose head the change of one sheet's signature alters.
    fn mark(&mut self, frames: &[Frame], old: Option<Signature>, new: Option<Signature>) {
        if old == new {
            return;
        }
        let gone = old.map(|s| s.name);
        let come = new.map(|s| s.name);
        for (slot, part) in self.records.iter_mut().zip(frames.chunks_exact(PLACES)) {
            if let Some(record) = slot {
                let own = &part[..=usize::from(record.end)];
                if !record.due
                    && own
                        .iter()
                        .any(|f| f.kind == CALL && (gone == Some(f.name) || come == Some(f.name)))
                {
                    record.due = true;
                }
            }
        }
    }

    pub fn put(
        &mut self,
        sheet: u8,
        formed: &Formed,
        frames: &mut [Frame],
        column: &mut [u8],
    ) -> Result<(), Fault> {
        let k = usize::from(sheet);
        if k >= SHEETS {
            return Err(book_fault(31, sheet, 0));
        }
        if frames.len() != AREA || column.len() != AREA {
            return Err(book_fault(32, sheet, 0));
        }
        let signature = signature(formed.frames());
        if self
            .records
            .iter()
            .enumerate()
            .any(|(t, r)| t != k && r.is_some_and(|r| r.signature.name == signature.name))
        {
            return Err(book_fault(33, sheet, 0));
        }
        if let Some(place) = repeated_parameter(formed.frames()) {
            return Err(book_fault(34, sheet, place));
        }
        self.mark(
            frames,
            self.records[k].map(|r| r.signature),
            Some(signature),
        );
        self.records[k] = Some(Record {
            signature,
            end: (formed.count - 1) as u8,
            due: true,
            verdict: Verdict::Valid,
        });
        self.valid = false;
        let range = k * PLACES..(k + 1) * PLACES;
        frames[range.clone()].copy_from_slice(&formed.frames);
        column[range].fill(0);
        Ok(())
    }

    pub fn clear(
        &mut self,
        sheet: u8,
        frames: &mut [Frame],
        column: &mut [u8],
    ) -> Result<(), Fault> {
        let k = usize::from(sheet);
        if k >= SHEETS {
            return Err(book_fault(31, sheet, 0));
        }
        if frames.len() != AREA || column.len() != AREA {
            return Err(book_fault(32, sheet, 0));
        }
        let Some(old) = self.records[k].take() else {
            return Err(book_fault(35, sheet, 0));
        };
        self.mark(frames, Some(old.signature), None);
        self.valid = false;
        let range = k * PLACES..(k + 1) * PLACES;
        frames[range.clone()].fill(Frame::default());
        column[range].fill(0);
        Ok(())
    }

    pub fn post(
        &mut self,
        text: &[u8],
        sheet: u8,
        room: &mut [Frame],
        frames: &mut [Frame],
        column: &mut [u8],
    ) -> Result<(), Fault> {
        let posted = |fault| Fault { sheet, ..fault };
        let count = read(text, room).map_err(posted)?;
        let mut formed = Formed::new();
        form(&room[..count], &mut formed).map_err(posted)?;
        self.put(sheet, &formed, frames, column)
    }

    pub fn check(
        &mut self,
        frames: &[Frame],
        column: &mut [u8],
        heads: &mut Levels<Head>,
        variables: &mut Levels<u8>,
    ) -> Result<Checked, Fault> {
        if frames.len() != AREA || column.len() != AREA {
            return Err(book_fault(32, 255, 0));
        }
        heads.wipe();
        heads.enter();
        for record in self.records.iter().flatten() {
            heads.declare(record.signature.name, record.signature.head);
        }
        let mut walked = 0;
        let mut fault = None;
        for (t, slot) in self.records.iter_mut().enumerate() {
            let Some(record) = slot else { continue };
            if record.due {
                let start = t * PLACES;
                let own = &frames[start..=start + usize::from(record.end)];
                let types = &mut column[start..start + PLACES];
                record.verdict =
                    self.walker
                        .examine(own, &record.signature, types, heads, variables);
                record.due = false;
                walked += 1;
            }
            if fault.is_none() {
                fault = match record.verdict {
                    Verdict::Valid => None,
                    Verdict::Altered => Some(book_fault(38, t as u8, 0)),
                    Verdict::Broken(number, place) => Some(Fault {
                        number,
                        layer: 4,
                        sheet: t as u8,
                        place,
                    }),
                };
            }
        }
        self.valid = fault.is_none();
        Ok(Checked { walked, fault })
    }
}

/// The types of a valid book.
pub struct Reader<'a> {
    book: &'a Book,
    frames: &'a [Frame],
    column: &'a [u8],
}

#[derive(Clone, Copy, PartialEq, Eq, Debug)]
pub enum Type {
    Bool,
    Int,
    Double,
    String,
    Void,
}

impl Reader<'_> {
    /// The type of the expression that ends at a place of a sheet.
    pub fn type_at(&self, sheet: u8, place: usize) -> Result<Option<Type>, Fault> {
        let k = usize::from(sheet);
        let slot = self.book.records.get(k).ok_or(book_fault(31, sheet, 0))?;
        if !slot.is_some_and(|r| place <= usize::from(r.end)) {
            return Ok(None);
        }
        let i = k * PLACES + place;
        if !matches!(self.frames[i].kind, 0x20..=0x2A | 0x30..=0x3C) {
            return Ok(None);
        }
        Ok(match self.column[i] {
            1 => Some(Type::Bool),
            2 => Some(Type::Int),
            3 => Some(Type::Double),
            4 => Some(Type::String),
            5 => Some(Type::Void),
            _ => None,
        })
    }
}

/// The heads of a book's sheets on one level.
pub fn heads_of(signatures: &[Signature]) -> Levels<Head> {
    let mut heads = Levels::new();
    heads.enter();
    for s in signatures {
        heads.declare(s.name, s.head);
    }
    heads
}
