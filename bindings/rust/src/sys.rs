//! The C interface, as in include/quadrensolo.h.

/// Accepted: `number` and `spot` are 0, `a` to `d` what the function says. Refused: number and spot of the row met, `a` to `d` are 0.
#[repr(C)]
#[derive(Clone, Copy, Debug, PartialEq, Eq)]
pub struct Reply {
    pub number: u64,
    pub spot: u64,
    pub a: u64,
    pub b: u64,
    pub c: u64,
    pub d: u64,
}

extern "C" {
    pub fn qs_read(text: *const u8, text_len: usize) -> Reply;

    pub fn qs_line(
        text: *const u8,
        text_len: usize,
        j: usize,
        place: usize,
        buf: *mut u8,
        buf_len: usize,
    ) -> Reply;

    pub fn qs_run(
        text: *const u8,
        text_len: usize,
        j: usize,
        buf: *mut u8,
        buf_len: usize,
    ) -> Reply;

    pub fn qs_check(
        text: *const u8,
        text_len: usize,
        answer: *const u8,
        answer_len: usize,
        assignment: *mut u8,
        assignment_len: usize,
        levels: *mut u8,
        levels_len: usize,
    ) -> Reply;

    pub fn qs_fill(
        text: *const u8,
        text_len: usize,
        set: *const u8,
        set_len: usize,
        assignment: *mut u8,
        assignment_len: usize,
        levels: *mut u8,
        levels_len: usize,
    ) -> Reply;
}
