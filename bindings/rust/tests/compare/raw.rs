//! The C interface itself, as a side.

use crate::sides::Side;
use quadrensolo::sys::{qs_check, qs_fill, qs_line, qs_read, qs_run};

// SAFETY of each: the slices' pointers and lengths; what is written overlaps nothing.
pub const RAW: Side = Side {
    read: |text| unsafe { qs_read(text.as_ptr(), text.len()) },
    line: |text, j, place, buf| unsafe {
        qs_line(
            text.as_ptr(),
            text.len(),
            j,
            place,
            buf.as_mut_ptr(),
            buf.len(),
        )
    },
    run: |text, j, buf| unsafe {
        qs_run(text.as_ptr(), text.len(), j, buf.as_mut_ptr(), buf.len())
    },
    check: |text, answer, values, levels| unsafe {
        qs_check(
            text.as_ptr(),
            text.len(),
            answer.as_ptr(),
            answer.len(),
            values.as_mut_ptr(),
            values.len(),
            levels.as_mut_ptr(),
            levels.len(),
        )
    },
    fill_out: |text, set, values, levels| unsafe {
        qs_fill(
            text.as_ptr(),
            text.len(),
            set.as_ptr(),
            set.len(),
            values.as_mut_ptr(),
            values.len(),
            levels.as_mut_ptr(),
            levels.len(),
        )
    },
};
