//! Rust's regex for bench/match.cc.
use regex::bytes::{Regex, RegexBuilder};
use std::slice::from_raw_parts;

#[no_mangle]
pub unsafe extern "C" fn rust_compile(ere: *const u8, length: usize) -> *mut Regex {
    let text = std::str::from_utf8(from_raw_parts(ere, length)).unwrap();
    Box::into_raw(Box::new(RegexBuilder::new(text).unicode(false).dot_matches_new_line(true).build().unwrap()))
}

#[no_mangle]
pub unsafe extern "C" fn rust_exists(re: *const Regex, text: *const u8, length: usize) -> u64 {
    (*re).is_match(from_raw_parts(text, length)) as u64
}

/// The start of the match from a place on, and one more; 0 if there is none.
#[no_mangle]
pub unsafe extern "C" fn rust_next(re: *const Regex, text: *const u8, length: usize, at: usize, end: *mut usize) -> u64 {
    match (*re).find_at(from_raw_parts(text, length), at) {
        Some(m) => {
            *end = m.end();
            m.start() as u64 + 1
        }
        None => 0,
    }
}
