//! Times the library beside a plain Rust version, and against itself.
mod clock;
mod compare;
mod library;
mod plain;
mod rounds;
mod sheets;
mod table;

use clock::each_round;
use plain::{AREA, Frame, PLACES};
use std::env;
use std::hint::black_box;

const SEED: u64 = 0x2545_F491_4F6C_DD1D;

/// The stores of a check, by the number that the library's exports take.
const STORES: [&str; 3] = ["piles", "chains", "a pile and chains"];

/// One line of the run: what was timed, and the nanoseconds of the library and of the plain version.
fn line(what: &str, ours: f64, plain: f64) {
    println!("{what}	{ours}	{plain}");
}

fn beside(what: &str, ours: &mut dyn FnMut(usize), theirs: &mut dyn FnMut(usize)) {
    let each = each_round(&mut [ours, theirs]);
    line(what, each[0], each[1]);
}

fn text_calls(book: &[Frame], texts: &[u8]) {
    let (mut frames, mut other) = ([Frame::default(); PLACES], [Frame::default(); PLACES]);
    beside(
        "read of a sheet's text",
        &mut |n| _ = black_box(library::read(black_box(texts), n, &mut frames)),
        &mut |n| _ = black_box(rounds::read(black_box(texts), n, &mut other)),
    );
    let (mut text, mut other) = ([0; 17 * PLACES], [0; 17 * PLACES]);
    beside(
        "write of a sheet",
        &mut |n| _ = black_box(library::write(black_box(book), n, &mut text)),
        &mut |n| _ = black_box(rounds::write(black_box(book), n, &mut other)),
    );
}

fn sheet_calls(book: &[Frame]) {
    beside(
        "form of a sheet",
        &mut |n| _ = black_box(library::form(black_box(book), n)),
        &mut |n| _ = black_box(rounds::form(black_box(book), n)),
    );
    for (stores, what) in STORES.iter().enumerate() {
        let (mut column, mut other) = ([0; PLACES], [0; PLACES]);
        beside(
            &format!("examine of a sheet, {what}"),
            &mut |n| {
                _ = black_box(library::examine(
                    black_box(book),
                    stores as u32,
                    n,
                    &mut column,
                ))
            },
            &mut |n| _ = black_box(rounds::examine(black_box(book), n, &mut other)),
        );
    }
}

/// The first sheet with another return type.
fn with_another_head(singles: &[Frame]) -> Vec<Frame> {
    let mut sheet = singles[..PLACES].to_vec();
    sheet[0].t = sheet[0].t % 5 + 1;
    sheet
}

fn book_calls(singles: &[Frame], texts: &[u8]) {
    let another = with_another_head(singles);
    for (what, other) in [
        ("put, the same head", &singles[..PLACES]),
        ("put, another head each time", &another),
    ] {
        let (mut column, mut other_column) = ([0; AREA], [0; AREA]);
        beside(
            what,
            &mut |n| _ = black_box(library::put(black_box(singles), other, n, &mut column)),
            &mut |n| _ = black_box(rounds::put(black_box(singles), other, n, &mut other_column)),
        );
    }
    beside(
        "clear, and put again",
        &mut |n| _ = black_box(library::clear(black_box(singles), n)),
        &mut |n| _ = black_box(rounds::clear(black_box(singles), n)),
    );
    beside(
        "post of a sheet's text",
        &mut |n| _ = black_box(library::post(black_box(texts), n)),
        &mut |n| _ = black_box(rounds::post(black_box(texts), n)),
    );
    beside(
        "fresh",
        &mut |n| _ = black_box(library::fresh(n)),
        &mut |n| _ = black_box(rounds::fresh(n)),
    );
    beside(
        "a reader, asked at all 8,192 places",
        &mut |n| _ = black_box(library::types(black_box(singles), n)),
        &mut |n| _ = black_box(rounds::types(black_box(singles), n)),
    );
}

/// The time of a check: of rounds with it less those without.
fn check(book: &[Frame], edits: bool, stores: usize, count: u8) -> (f64, f64) {
    let ours = |checks: bool, n: usize| {
        let mut column = [0; AREA];
        black_box(library::book(
            black_box(book),
            edits,
            stores as u32,
            count,
            checks,
            n,
            &mut column,
        ));
    };
    let theirs = |checks: bool, n: usize| {
        let mut column = [0; AREA];
        black_box(rounds::book(
            black_box(book),
            edits,
            count,
            checks,
            n,
            &mut column,
        ));
    };
    let each = each_round(&mut [
        &mut |n| ours(true, n),
        &mut |n| ours(false, n),
        &mut |n| theirs(true, n),
        &mut |n| theirs(false, n),
    ]);
    (each[0] - each[1], each[2] - each[3])
}

fn checks(book: &[Frame], singles: &[Frame], stores: usize) {
    let with = STORES[stores];
    let (ours, theirs) = check(book, false, stores, 32);
    line(
        &format!("fresh check of 32 sheets that call one another, {with}"),
        ours,
        theirs,
    );
    let (ours, theirs) = check(book, true, stores, 32);
    line(
        &format!("check after one sheet was put again, {with}"),
        ours,
        theirs,
    );
    for count in [1u8, 2, 4, 8, 16, 32] {
        let (ours, theirs) = check(singles, false, stores, count);
        line(
            &format!("fresh check of sheets that call themselves: {count}, {with}"),
            ours,
            theirs,
        );
    }
}

fn measure() {
    let book = sheets::full_book(SEED);
    let singles = sheets::single_sheets(SEED);
    let texts = sheets::texts_of(&book);
    println!("{} answers compared, all equal", compare::compare(&book));
    text_calls(&book, &texts);
    sheet_calls(&book);
    book_calls(&singles, &texts);
    for stores in 0..STORES.len() {
        checks(&book, &singles, stores);
    }
}

/// With no argument it compares and times; with the files of such runs it prints their table.
fn main() {
    let files: Vec<String> = env::args().skip(1).collect();
    if files.is_empty() {
        measure();
    } else {
        table::table(&files);
    }
}
