//! The same calls on three sides: the proved library through its safe wrappers, the plain implementation, and the tuned one.

use crate::tuned;
use quadrensolo::sys::Reply;
use quadrensolo::{Model, Refusal};

/// A call on a text, an answer or a set, and the buffers of assignment and levels.
pub type Modelled = fn(&[u8], &[u8], &mut [u8], &mut [u8]) -> Reply;

pub struct Side {
    pub read: fn(&[u8]) -> Reply,
    pub line: fn(&[u8], usize, usize, &mut [u8]) -> Reply,
    pub run: fn(&[u8], usize, &mut [u8]) -> Reply,
    pub check: Modelled,
    pub fill_out: Modelled,
}

pub const PLAIN: Side = Side {
    read: |text| pair(plain::read(text).map(two)),
    line: |text, j, place, buf| pair(plain::line(text, j, place, buf).map(one)),
    run: |text, j, buf| pair(plain::run(text, j, buf).map(two)),
    check: |text, answer, values, levels| {
        pair(plain::check(text, answer, values, levels).map(Numbers::from))
    },
    fill_out: |text, set, values, levels| pair(plain::fill_out(text, set, values, levels).map(two)),
};

pub const TUNED: Side = Side {
    read: |text| pair(tuned::read(text).map(two)),
    line: |text, j, place, buf| pair(tuned::line(text, j, place, buf).map(one)),
    run: |text, j, buf| pair(tuned::run(text, j, buf).map(two)),
    check: |text, answer, values, levels| {
        pair(tuned::check(text, answer, values, levels).map(Numbers::from))
    },
    fill_out: |text, set, values, levels| pair(tuned::fill_out(text, set, values, levels).map(two)),
};

pub const SAFE: Side = Side {
    read: |text| safe(quadrensolo::read(text).map(|totals| [totals.variables, totals.clauses, 0])),
    line: |text, j, place, buf| safe(quadrensolo::line(text, j, place, buf).map(one)),
    run: |text, j, buf| safe(quadrensolo::run(text, j, buf).map(|run| [run.lines, run.bytes, 0])),
    check: |text, answer, values, levels| {
        safe(quadrensolo::check(text, answer, values, levels).map(model))
    },
    fill_out: |text, set, values, levels| {
        safe(quadrensolo::fill_out(text, set, values, levels).map(model))
    },
};

/// The numbers a, b and c of a reply.
type Numbers = [usize; 3];

fn one(a: usize) -> Numbers {
    [a, 0, 0]
}

fn two((a, b): (usize, usize)) -> Numbers {
    [a, b, 0]
}

fn model(model: Model) -> Numbers {
    [model.true_atoms, model.highest_level, model.assumed]
}

fn pair(said: Result<Numbers, (u32, usize)>) -> Reply {
    match said {
        Ok(numbers) => accepted(numbers),
        Err((number, spot)) => refused(number as u64, spot as u64),
    }
}

fn safe(said: Result<Numbers, Refusal>) -> Reply {
    match said {
        Ok(numbers) => accepted(numbers),
        Err(Refusal { number, spot }) => refused(number, spot),
    }
}

fn accepted(numbers: Numbers) -> Reply {
    let [a, b, c] = numbers.map(|number| number as u64);
    Reply {
        a,
        b,
        c,
        ..refused(0, 0)
    }
}

fn refused(number: u64, spot: u64) -> Reply {
    Reply {
        number,
        spot,
        a: 0,
        b: 0,
        c: 0,
        d: 0,
    }
}
