//! The library's exports, safely wrapped.
use crate::plain::Frame;

unsafe extern "C" {
    fn yard_read(
        texts: *const u8,
        length: usize,
        rounds: usize,
        frames: *mut Frame,
        count: usize,
    ) -> usize;
    fn yard_write(
        frames: *const Frame,
        count: usize,
        rounds: usize,
        text: *mut u8,
        length: usize,
    ) -> usize;
    fn yard_form(frames: *const Frame, count: usize, rounds: usize) -> usize;
    fn yard_examine(
        frames: *const Frame,
        count: usize,
        stores: u32,
        rounds: usize,
        column: *mut u8,
        length: usize,
    ) -> usize;
    fn yard_book(
        frames: *const Frame,
        count: usize,
        edits: bool,
        stores: u32,
        sheets: u8,
        checks: bool,
        rounds: usize,
        column: *mut u8,
        length: usize,
        numbers: *mut usize,
        told: usize,
    );
    fn yard_put(
        frames: *const Frame,
        count: usize,
        other: *const Frame,
        other_count: usize,
        rounds: usize,
        column: *mut u8,
        length: usize,
        numbers: *mut usize,
        told: usize,
    );
    fn yard_clear(
        frames: *const Frame,
        count: usize,
        rounds: usize,
        numbers: *mut usize,
        told: usize,
    );
    fn yard_post(texts: *const u8, length: usize, rounds: usize, numbers: *mut usize, told: usize);
    fn yard_fresh(rounds: usize, numbers: *mut usize, told: usize);
    fn yard_types(frames: *const Frame, count: usize, rounds: usize) -> usize;
}

// Each call below hands over slices with their lengths, as the exports want them; no export has a precondition.

pub fn read(texts: &[u8], rounds: usize, frames: &mut [Frame]) -> usize {
    unsafe {
        yard_read(
            texts.as_ptr(),
            texts.len(),
            rounds,
            frames.as_mut_ptr(),
            frames.len(),
        )
    }
}

pub fn write(frames: &[Frame], rounds: usize, text: &mut [u8]) -> usize {
    unsafe {
        yard_write(
            frames.as_ptr(),
            frames.len(),
            rounds,
            text.as_mut_ptr(),
            text.len(),
        )
    }
}

pub fn form(frames: &[Frame], rounds: usize) -> usize {
    unsafe { yard_form(frames.as_ptr(), frames.len(), rounds) }
}

pub fn examine(frames: &[Frame], stores: u32, rounds: usize, column: &mut [u8]) -> usize {
    unsafe {
        yard_examine(
            frames.as_ptr(),
            frames.len(),
            stores,
            rounds,
            column.as_mut_ptr(),
            column.len(),
        )
    }
}

pub fn book(
    frames: &[Frame],
    edits: bool,
    stores: u32,
    sheets: u8,
    checks: bool,
    rounds: usize,
    column: &mut [u8],
) -> [usize; 6] {
    let mut numbers = [0; 6];
    unsafe {
        yard_book(
            frames.as_ptr(),
            frames.len(),
            edits,
            stores,
            sheets,
            checks,
            rounds,
            column.as_mut_ptr(),
            column.len(),
            numbers.as_mut_ptr(),
            numbers.len(),
        )
    };
    numbers
}

pub fn put(frames: &[Frame], other: &[Frame], rounds: usize, column: &mut [u8]) -> [usize; 6] {
    let mut numbers = [0; 6];
    unsafe {
        yard_put(
            frames.as_ptr(),
            frames.len(),
            other.as_ptr(),
            other.len(),
            rounds,
            column.as_mut_ptr(),
            column.len(),
            numbers.as_mut_ptr(),
            numbers.len(),
        )
    };
    numbers
}

pub fn clear(frames: &[Frame], rounds: usize) -> [usize; 6] {
    let mut numbers = [0; 6];
    unsafe {
        yard_clear(
            frames.as_ptr(),
            frames.len(),
            rounds,
            numbers.as_mut_ptr(),
            numbers.len(),
        )
    };
    numbers
}

pub fn post(texts: &[u8], rounds: usize) -> [usize; 6] {
    let mut numbers = [0; 6];
    unsafe {
        yard_post(
            texts.as_ptr(),
            texts.len(),
            rounds,
            numbers.as_mut_ptr(),
            numbers.len(),
        )
    };
    numbers
}

pub fn fresh(rounds: usize) -> [usize; 6] {
    let mut numbers = [0; 6];
    unsafe { yard_fresh(rounds, numbers.as_mut_ptr(), numbers.len()) };
    numbers
}

pub fn types(frames: &[Frame], rounds: usize) -> usize {
    unsafe { yard_types(frames.as_ptr(), frames.len(), rounds) }
}
