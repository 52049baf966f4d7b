//! The check of a solver answer.

use super::answer::{read_answer, MISSING};
use super::text::{read_program, Program};
use super::truth::first_false;
use super::{load, Refusal, Sizes, MAX_VARIABLES};
use std::mem::MaybeUninit;

/// How many atoms are true, the highest level, and how many variables the answer leaves out.
pub fn check(
    text: &[u8],
    answer: &[u8],
    assignment: &mut [u8],
    levels: &mut [u8],
) -> Result<(usize, usize, usize), Refusal> {
    let mut program = Program::UNSET;
    let sizes = read_program(text, &mut program)?;
    let variables = sizes.variables();
    sizes.room(assignment, levels)?;
    let mut places = [MaybeUninit::<u8>::uninit(); MAX_VARIABLES + 8];
    // SAFETY: V is at most MAX_VARIABLES. Eight bytes more are set for those who read that many at a time.
    let values: &mut [u8] = unsafe {
        let start = places.as_mut_ptr().cast::<u8>();
        start.write_bytes(MISSING, variables);
        super::store(start.add(variables), 0);
        std::slice::from_raw_parts_mut(start, variables)
    };
    let (given, met) = read_answer(answer, values)?;
    let assumed = variables - given;
    if assumed > 0 {
        values.iter_mut().for_each(|value| *value &= 1);
    }
    // SAFETY: the program was read with these sizes, and each of its variables has a value.
    let refusal = met.or_else(|| unsafe {
        let clause = first_false(&program, &sizes, places.as_ptr().cast())?;
        Some((16, clause))
    });
    let values = unsafe { places[..variables].assume_init_ref() };
    if let Some(refusal) = refusal {
        assignment[..variables].fill(0);
        return Err(refusal);
    }
    assignment[..variables].copy_from_slice(values);
    let count = values[..sizes.n].iter().map(|&value| value as usize).sum();
    // SAFETY: the levels have room for n bytes.
    let highest = unsafe { put_levels(&sizes, values.as_ptr(), levels.as_mut_ptr()) };
    Ok((count, highest, assumed))
}

/// Each atom's counter; the highest.
unsafe fn put_levels(sizes: &Sizes, values: *const u8, levels: *mut u8) -> usize {
    let bits = (1u64 << (8 * sizes.w)) - 1;
    let mut highest = 0;
    let mut from = values.add(sizes.n + 2 * sizes.m);
    for atom in 0..sizes.n {
        // Bit i of the highest byte of the product is byte i.
        let level = (load(from) & bits).wrapping_mul(0x0102_0408_1020_4080) >> 56;
        levels.add(atom).write(level as u8);
        highest = highest.max(level);
        from = from.add(sizes.w);
    }
    highest as usize
}
