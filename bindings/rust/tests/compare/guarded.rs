//! The tuned implementation, as a side, on buffers that lie between other bytes: none of those may change.

use crate::sides::{Side, TUNED};

pub const GUARDED: Side = Side {
    read: TUNED.read,
    line: |text, j, place, buf| guarded(buf, |buf| (TUNED.line)(text, j, place, buf)),
    run: |text, j, buf| guarded(buf, |buf| (TUNED.run)(text, j, buf)),
    check: |text, answer, values, levels| {
        guarded(values, |values| {
            guarded(levels, |levels| (TUNED.check)(text, answer, values, levels))
        })
    },
    fill_out: |text, set, values, levels| {
        guarded(values, |values| {
            guarded(levels, |levels| (TUNED.fill_out)(text, set, values, levels))
        })
    },
};

/// So many bytes lie on each side.
const GUARD: usize = 64;

fn guarded<T>(buf: &mut [u8], call: impl FnOnce(&mut [u8]) -> T) -> T {
    let mut wide = vec![0xa5; buf.len() + 2 * GUARD];
    let range = GUARD..GUARD + buf.len();
    wide[range.clone()].copy_from_slice(buf);
    let said = call(&mut wide[range.clone()]);
    buf.copy_from_slice(&wide[range.clone()]);
    let mut around = wide[..range.start].iter().chain(&wide[range.end..]);
    assert!(around.all(|&byte| byte == 0xa5), "written beside a buffer");
    said
}
