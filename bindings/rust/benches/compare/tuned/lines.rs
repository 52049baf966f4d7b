//! Lines of the clause file: one, or as many as fit.

use super::clauses::{before, clauses_of, items, literals, place_of, Place};
use super::items::{Items, Links};
use super::numerals::{numeral, Pen};
use super::text::{read_program, Program};
use super::{Refusal, Sizes};
use std::mem::MaybeUninit;
use std::ptr::copy_nonoverlapping;

/// No line is longer.
const MAX_LINE: usize = 3_008;
/// No item's bound is larger, with eight bytes more.
const MAX_ITEM: usize = 14_000;

type Scratch<const N: usize> = [MaybeUninit<u8>; N];

/// Line j, from `place` on; its length.
pub fn line(text: &[u8], j: usize, place: usize, buf: &mut [u8]) -> Result<usize, Refusal> {
    let mut program = Program::UNSET;
    let sizes = read_program(text, &mut program)?;
    let clauses = sizes.clauses();
    if j > clauses {
        return Err((9, clauses));
    }
    let tail = buf.get_mut(place..).unwrap_or_default();
    let mut scratch: Scratch<{ MAX_LINE + 8 }> = [MaybeUninit::uninit(); MAX_LINE + 8];
    // SAFETY: the program was read with these sizes, and j is at most C. No line is longer than MAX_LINE.
    unsafe {
        let length = match j {
            0 => header(&sizes, scratch.as_mut_ptr().cast()),
            _ => {
                let place = place_of(&program, &sizes, j);
                clause(&program, &sizes, place, scratch.as_mut_ptr().cast())
            }
        };
        if length > tail.len() {
            return Err((8, length));
        }
        copy_nonoverlapping(scratch.as_ptr().cast(), tail.as_mut_ptr(), length);
        Ok(length)
    }
}

/// As many lines as fit, from line j on; how many, and their bytes.
pub fn run(text: &[u8], j: usize, buf: &mut [u8]) -> Result<(usize, usize), Refusal> {
    let mut program = Program::UNSET;
    let sizes = read_program(text, &mut program)?;
    let clauses = sizes.clauses();
    if j > clauses {
        return Err((9, clauses));
    }
    let mut scratch: Scratch<MAX_ITEM> = [MaybeUninit::uninit(); MAX_ITEM];
    let mut links = Links::none();
    let buf = buf.as_mut_ptr_range();
    // SAFETY: the program was read with these sizes, and j is at most C.
    unsafe {
        links.set(&program, &sizes);
        let mut run = Run {
            items: Items {
                program: &program,
                sizes,
                links: &links,
            },
            start: buf.start,
            pen: Pen(buf.start),
            end: buf.end,
            scratch: scratch.as_mut_ptr().cast(),
        };
        run.lines(j, clauses)
    }
}

/// The lines that are written, up to `pen`.
struct Run<'a> {
    items: Items<'a>,
    start: *mut u8,
    pen: Pen,
    end: *mut u8,
    scratch: *mut u8,
}

impl Run<'_> {
    #[inline(always)]
    unsafe fn lines(&mut self, j: usize, clauses: usize) -> Result<(usize, usize), Refusal> {
        let mut place = Place {
            group: 0,
            item: 0,
            number: 0,
        };
        if j == 0 {
            let length = header(&self.items.sizes, self.scratch);
            if !self.copy(length) {
                return Err((8, length));
            }
        } else {
            place = place_of(self.items.program, &self.items.sizes, j);
            if place.number > 0 {
                // the rest of an item
                if let Some(length) = self.line_by_line(&mut place) {
                    return self.stopped(j, place, length);
                }
            }
        }
        while place.group < 7 {
            let count = items(&self.items.sizes, place.group);
            // The last line of all is written exactly.
            let quick = count - (place.group == 6 && count > 0) as usize;
            let needed = self.items.bound(place.group) + self.items.longest() + 8;
            if self.room() >= needed {
                let limit = self.end.sub(needed);
                self.items.group(&mut place, quick, &mut self.pen, limit);
            }
            while place.item < count {
                let (item, mut pen) = (place.item, Pen(self.scratch));
                self.items
                    .group(&mut place, item + 1, &mut pen, self.scratch);
                if !self.copy(pen.0.offset_from(self.scratch) as usize) {
                    place.item = item;
                    if let Some(length) = self.line_by_line(&mut place) {
                        return self.stopped(j, place, length);
                    }
                }
            }
            place.group += 1;
            place.item = 0;
        }
        Ok((clauses + 1 - j, self.written()))
    }

    /// The rest of an item, line by line; the length of the first one that does not fit.
    #[cold]
    unsafe fn line_by_line(&mut self, place: &mut Place) -> Option<usize> {
        let count = clauses_of(
            self.items.program,
            &self.items.sizes,
            place.group,
            place.item,
        );
        while place.number < count {
            let length = clause(self.items.program, &self.items.sizes, *place, self.scratch);
            debug_assert!(length <= self.items.longest());
            if !self.copy(length) {
                return Some(length);
            }
            place.number += 1;
        }
        place.number = 0;
        place.item += 1;
        None
    }

    /// The reply where a line of that length does not fit.
    #[cold]
    unsafe fn stopped(
        &self,
        j: usize,
        place: Place,
        length: usize,
    ) -> Result<(usize, usize), Refusal> {
        let next = before(
            self.items.program,
            &self.items.sizes,
            place.group,
            place.item,
        ) + place.number
            + 1;
        match next - j {
            0 => Err((8, length)),
            count => Ok((count, self.written())),
        }
    }

    fn written(&self) -> usize {
        self.pen.0 as usize - self.start as usize
    }

    fn room(&self) -> usize {
        self.end as usize - self.pen.0 as usize
    }

    /// So many bytes from the scratch, if they fit.
    #[inline(always)]
    unsafe fn copy(&mut self, length: usize) -> bool {
        let fits = length <= self.room();
        if fits {
            copy_nonoverlapping(self.scratch, self.pen.0, length);
            self.pen.0 = self.pen.0.add(length);
        }
        fits
    }
}

/// Line 0; its length. SAFETY of both: the longest line and eight bytes more can be written.
unsafe fn header(sizes: &Sizes, to: *mut u8) -> usize {
    let mut pen = Pen(to);
    super::store(pen.0, u64::from_le_bytes(*b"p cnf \0\0"));
    pen.0 = pen.0.add(6);
    pen.yes(numeral(sizes.variables()));
    let clauses = sizes.clauses();
    // up to five digits: all but the last, and the last in place of a space
    if clauses >= 10 {
        pen.yes(numeral(clauses / 10));
        pen.0 = pen.0.sub(1);
    }
    pen.0.write(b'0' + (clauses % 10) as u8);
    pen.0.add(1).write(b'\n');
    pen.0.add(2).offset_from(to) as usize
}

/// A clause's line; its length.
#[inline(always)]
unsafe fn clause(program: &Program, sizes: &Sizes, place: Place, to: *mut u8) -> usize {
    let mut pen = Pen(to);
    literals(program, sizes, place, |variable, positive| match positive {
        true => pen.yes(numeral(variable)),
        false => pen.no(numeral(variable)),
    });
    pen.end();
    pen.0.offset_from(to) as usize
}
