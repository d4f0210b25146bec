//! The calls of include/lurvetta.h, each behind a function that meets what it asks for. Nothing compares the declarations with
//! the header.
use std::{ffi::c_void, ptr::null_mut};

pub const OK: u8 = 0;
pub const NO_ROOM: u8 = 2;
pub const INVALID_TIMEZONE: u8 = 5;
pub const INVALID_LOCALE: u8 = 6;
pub const INVALID_LANGUAGE: u8 = 7;
pub const INVALID_MOMENT: u8 = 8;

/// The room of a book, which the library alone reads.
#[repr(C)]
pub struct Room {
    at: *mut c_void,
}

/// The room of the tables that books share. They are never freed.
#[repr(C)]
pub struct Tables {
    at: *mut c_void,
}

impl Room {
    pub const fn new() -> Room {
        Room { at: null_mut() }
    }
}

impl Tables {
    pub const fn new() -> Tables {
        Tables { at: null_mut() }
    }
}

// SAFETY: a book owns its memory, counts and locks nothing, and shares nothing but tables, which are only read once they are
// made; a room is handed to a call by `&mut` alone.
unsafe impl Send for Room {}
unsafe impl Send for Tables {}

unsafe extern "C" {
    fn lurvetta_open(
        book: *mut Room,
        tables: *mut Tables,
        name: *const u8,
        name_len: usize,
        locale: *const u8,
        locale_len: usize,
        language: *const u8,
        language_len: usize,
        zone: *const u8,
        zone_len: usize,
        milliseconds: i64,
    ) -> u8;
    fn lurvetta_close(book: *mut Room);
    fn lurvetta_answer(book: *mut Room, line: *const u8, line_len: usize, out: *mut u8, out_len: usize, told: *mut usize) -> u8;
    fn lurvetta_run(book: *mut Room, lines: *const u8, lines_len: usize, out: *mut u8, out_len: usize, told: *mut usize) -> u8;
    fn lurvetta_copy(book: *mut Room, out: *mut u8, out_len: usize, told: *mut usize) -> u8;
}

// SAFETY of each call: the declaration fits the header; a room comes by `&mut`, so that one call has it, and is zeros or what
// the last call left; each pointer and its length are those of one slice, none is null, and what is written overlaps nothing.

pub fn open(room: &mut Room, tables: &mut Tables, name: &str, locale: &str, language: &str, zone: &str, milliseconds: i64) -> u8 {
    unsafe {
        lurvetta_open(
            room,
            tables,
            name.as_ptr(),
            name.len(),
            locale.as_ptr(),
            locale.len(),
            language.as_ptr(),
            language.len(),
            zone.as_ptr(),
            zone.len(),
            milliseconds,
        )
    }
}

pub fn close(room: &mut Room) {
    unsafe { lurvetta_close(room) }
}

/// The status, and the length of the reply.
pub fn answer(room: &mut Room, line: &[u8], out: &mut [u8]) -> (u8, usize) {
    let mut told = 0;
    let status = unsafe { lurvetta_answer(room, line.as_ptr(), line.len(), out.as_mut_ptr(), out.len(), &mut told) };
    (status, told)
}

/// The status, and the length of the replies.
pub fn run(room: &mut Room, lines: &[u8], out: &mut [u8]) -> (u8, usize) {
    let mut told = 0;
    let status = unsafe { lurvetta_run(room, lines.as_ptr(), lines.len(), out.as_mut_ptr(), out.len(), &mut told) };
    (status, told)
}

/// The status, and the length of the reply that is kept.
pub fn copy(room: &mut Room, out: &mut [u8]) -> (u8, usize) {
    let mut told = 0;
    let status = unsafe { lurvetta_copy(room, out.as_mut_ptr(), out.len(), &mut told) };
    (status, told)
}
