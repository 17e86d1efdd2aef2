//! Both versions on the same inputs, good and damaged.
use crate::plain::{AREA, Frame, PLACES};
use crate::sheets::{damaged, texts_of};
use crate::{library, rounds};

/// So many books are compared, the first of them undamaged.
const BOOKS: u64 = 400;

/// The text of a book, every third time with a byte that is no digit.
fn text_of(book: &[Frame], seed: u64) -> Vec<u8> {
    let mut text = texts_of(book);
    if seed % 3 == 2 {
        let i = seed as usize * 7919 % text.len();
        text[i] = b'g';
    }
    text
}

fn compare_sheets(book: &[Frame], text: &[u8]) -> usize {
    for turns in [1, 5, 32] {
        let (mut a, mut b) = ([Frame::default(); PLACES], [Frame::default(); PLACES]);
        assert_eq!(
            library::read(text, turns, &mut a),
            rounds::read(text, turns, &mut b)
        );
        assert_eq!(a, b);
        let (mut a, mut b) = (vec![1; 4400], vec![1; 4400]);
        assert_eq!(
            library::write(book, turns, &mut a),
            rounds::write(book, turns, &mut b)
        );
        assert_eq!(a, b);
        assert_eq!(library::form(book, turns), rounds::form(book, turns));
        assert_eq!(library::post(text, turns), rounds::post(text, turns));
    }
    12
}

fn compare_checks(book: &[Frame], stores: u32) -> usize {
    for (edits, count) in [(false, 32), (true, 32), (true, 20)] {
        let (mut a, mut b) = (vec![0; AREA], vec![0; AREA]);
        let ours = library::book(book, edits, stores, count, true, 3, &mut a);
        assert_eq!(ours, rounds::book(book, edits, count, true, 3, &mut b));
        assert_eq!(a, b);
    }
    let (mut a, mut b) = ([0; PLACES], [0; PLACES]);
    assert_eq!(
        library::examine(book, stores, 32, &mut a),
        rounds::examine(book, 32, &mut b)
    );
    assert_eq!(a, b);
    4
}

fn compare_edits(book: &[Frame]) -> usize {
    let (mut a, mut b) = (vec![0; AREA], vec![0; AREA]);
    let other = &book[PLACES..2 * PLACES];
    assert_eq!(
        library::put(book, other, 3, &mut a),
        rounds::put(book, other, 3, &mut b)
    );
    assert_eq!(a, b);
    assert_eq!(library::clear(book, 2), rounds::clear(book, 2));
    assert_eq!(library::types(book, 1), rounds::types(book, 1));
    assert_eq!(library::fresh(9), rounds::fresh(9));
    4
}

/// How many answers, with the areas left, were compared; the first that differs ends the run.
pub fn compare(sheets: &[Frame]) -> usize {
    let mut compared = 0;
    for seed in 0..BOOKS {
        let book = if seed == 0 {
            sheets.to_vec()
        } else {
            damaged(sheets, seed.wrapping_mul(0x9E37_79B9_7F4A_7C15))
        };
        compared += compare_sheets(&book, &text_of(&book, seed));
        compared += (0..3)
            .map(|stores| compare_checks(&book, stores))
            .sum::<usize>();
        compared += compare_edits(&book);
    }
    compared
}
