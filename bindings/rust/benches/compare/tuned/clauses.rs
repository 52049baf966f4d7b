//! Single clauses by their numbers.

use super::text::Program;
use super::{mask, Sizes, BLOCK};

/// A clause: its group from 0, its item in the group from 0 (a rule, an atom or a pair), its number in the item from 0.
#[derive(Clone, Copy)]
pub struct Place {
    pub group: usize,
    pub item: usize,
    pub number: usize,
}

/// How many items a group has.
#[inline(always)]
pub fn items(sizes: &Sizes, group: usize) -> usize {
    match group {
        0 | 5 => sizes.m,
        4 => sizes.k,
        _ => sizes.n,
    }
}

/// SAFETY of all below: the program was read with these sizes, and the item is one of the group's.
/// How many clauses an item has.
pub unsafe fn clauses_of(program: &Program, sizes: &Sizes, group: usize, item: usize) -> usize {
    let w = sizes.w;
    let pairs = |rule| program.pair_start(rule + 1) - program.pair_start(rule);
    let negated = |rule| program.negated_start(rule + 1) - program.negated_start(rule);
    match group {
        0 => pairs(item) + negated(item) + 1,
        1 => {
            let mut count = 1;
            rules_of(program, sizes, item + 1, |_| count += 1);
            count
        }
        2 => w,
        3 => w * (w + 1),
        4 => 12 * w - 6,
        5 if pairs(item) == 0 => 2 + w,
        5 => 3 + pairs(item),
        _ => 1,
    }
}

/// Where clause j from 1 is; j is at most C.
pub unsafe fn place_of(program: &Program, sizes: &Sizes, j: usize) -> Place {
    let mut number = j - 1;
    let mut group = 0;
    for count in sizes.groups() {
        if number < count {
            break;
        }
        number -= count;
        group += 1;
    }
    let w = sizes.w;
    let even = |each: usize| (number / each, number % each);
    let (item, number) = match group {
        2 => even(w),
        3 => even(w * (w + 1)),
        4 => even(12 * w - 6),
        6 => (number, 0),
        1 => place_of_atom(program, sizes, number),
        _ => {
            let mut item = 0;
            loop {
                let count = clauses_of(program, sizes, group, item);
                if number < count {
                    break (item, number);
                }
                number -= count;
                item += 1;
            }
        }
    };
    Place {
        group,
        item,
        number,
    }
}

/// In group 2, whose items go by how many rules each atom heads.
unsafe fn place_of_atom(program: &Program, sizes: &Sizes, mut number: usize) -> (usize, usize) {
    let mut counts = [1u16; super::MAX_ATOMS + 1];
    for rule in 0..sizes.m {
        *counts.get_unchecked_mut(program.head(rule)) += 1;
    }
    let mut item = 0;
    loop {
        let count = *counts.get_unchecked(item + 1) as usize;
        if number < count {
            return (item, number);
        }
        number -= count;
        item += 1;
    }
}

/// How many clauses come before an item.
pub unsafe fn before(program: &Program, sizes: &Sizes, group: usize, item: usize) -> usize {
    let groups: usize = sizes.groups()[..group].iter().sum();
    let w = sizes.w;
    let within = match group {
        0 => program.pair_start(item) + program.negated_start(item) + item,
        1 => {
            item + (0..sizes.m)
                .filter(|&rule| program.head(rule) <= item)
                .count()
        }
        2 => item * w,
        3 => item * w * (w + 1),
        4 => item * (12 * w - 6),
        5 => (0..item)
            .map(|rule| clauses_of(program, sizes, 5, rule))
            .sum(),
        _ => item,
    };
    groups + within
}

/// Hands out the rules with this head, in text order.
#[inline(always)]
unsafe fn rules_of(program: &Program, sizes: &Sizes, head: usize, mut take: impl FnMut(usize)) {
    let mut rule = 0;
    while rule + BLOCK <= sizes.m {
        let mut found = mask(program.heads(rule), head as u8);
        while found != 0 {
            take(rule + found.trailing_zeros() as usize);
            found &= found - 1;
        }
        rule += BLOCK;
    }
    for rule in rule..sizes.m {
        if program.head(rule) == head {
            take(rule);
        }
    }
}

/// Hands out the literals of a clause.
#[inline]
pub unsafe fn literals(
    program: &Program,
    sizes: &Sizes,
    place: Place,
    mut take: impl FnMut(usize, bool),
) {
    let Place {
        group,
        item,
        number,
    } = place;
    match group {
        0 => body(program, sizes, item, number, take),
        1 => {
            let (atom, mut short, mut count) = (item + 1, None, 0);
            rules_of(program, sizes, atom, |rule| {
                if count == number {
                    short = Some(rule);
                }
                count += 1;
            });
            take(atom, short.is_some());
            match short {
                Some(rule) => take(sizes.t(rule), false),
                None => rules_of(program, sizes, atom, |rule| take(sizes.t(rule), true)),
            }
        }
        2 => {
            take(item + 1, true);
            take(sizes.v(item + 1) + number + 1, false);
        }
        3 => successor(sizes, item + 1, number, take),
        4 => {
            let (atom, head) = (program.partner(item), program.owner(item));
            let (count, y) = (6 * sizes.w - 3, sizes.v(head));
            match number < count {
                true => comparison(sizes.p(item), sizes.v(atom), y, number, take),
                false => comparison(sizes.q(item), sizes.u(atom), y, number - count, take),
            }
        }
        5 => founding(program, sizes, item, number, take),
        _ => {
            take(item + 1, false);
            rules_of(program, sizes, item + 1, |rule| take(sizes.s(rule), true));
        }
    }
}

/// Group 1: t(r) is the body of rule r.
unsafe fn body(
    program: &Program,
    sizes: &Sizes,
    rule: usize,
    number: usize,
    mut take: impl FnMut(usize, bool),
) {
    let pairs = program.pair_start(rule)..program.pair_start(rule + 1);
    let negated = program.negated_start(rule)..program.negated_start(rule + 1);
    let t = sizes.t(rule);
    if number < pairs.len() {
        take(t, false);
        take(program.partner(pairs.start + number), true);
    } else if number < pairs.len() + negated.len() {
        take(t, false);
        take(program.negated(negated.start + number - pairs.len()), false);
    } else {
        take(t, true);
        pairs.for_each(|pair| take(program.partner(pair), false));
        negated.for_each(|place| take(program.negated(place), true));
    }
}

/// Group 4: u is v plus 1. Bit i has 2 i clauses.
fn successor(sizes: &Sizes, atom: usize, mut number: usize, mut take: impl FnMut(usize, bool)) {
    let (v, u) = (sizes.v(atom), sizes.u(atom));
    let mut bit = 1;
    while number >= 2 * bit {
        number -= 2 * bit;
        bit += 1;
    }
    let second = number % 2 == 1;
    if number / 2 + 1 < bit {
        take(v + number / 2 + 1, true);
        take(u + bit, second);
        take(v + bit, !second);
    } else {
        (1..bit).for_each(|lower| take(v + lower, false));
        take(u + bit, second);
        take(v + bit, second);
    }
}

/// Group 5: z(i) says that the lowest i bits of x are below those of y. Bit 1 has three clauses, the others six.
fn comparison(z: usize, x: usize, y: usize, number: usize, mut take: impl FnMut(usize, bool)) {
    if number < 3 {
        take(z + 1, number == 2);
        if number != 1 {
            take(x + 1, number == 2);
        }
        if number != 0 {
            take(y + 1, number == 1);
        }
        return;
    }
    let bit = (number - 3) / 6 + 2;
    let (number, below) = ((number - 3) % 6, z + bit - 1);
    let upper = number >= 3;
    take(z + bit, upper);
    match number % 3 {
        0 => {
            take(x + bit, upper);
            take(y + bit, !upper);
        }
        1 => {
            take(x + bit, upper);
            take(below, !upper);
        }
        _ => {
            take(y + bit, !upper);
            take(below, !upper);
        }
    }
}

/// Group 6: s(r) says that rule r founds its head; a true body bounds the head's level from above.
unsafe fn founding(
    program: &Program,
    sizes: &Sizes,
    rule: usize,
    number: usize,
    mut take: impl FnMut(usize, bool),
) {
    let pairs = program.pair_start(rule)..program.pair_start(rule + 1);
    let (w, t, s) = (sizes.w, sizes.t(rule), sizes.s(rule));
    let v = sizes.v(program.head(rule));
    let count = pairs.len();
    if number == 0 {
        take(s, false);
        take(t, true);
    } else if number <= count {
        take(s, false);
        take(sizes.p(pairs.start + number - 1) + w, true);
    } else if number == count + 1 {
        take(s, true);
        take(t, false);
        pairs.for_each(|pair| take(sizes.p(pair) + w, false));
    } else {
        take(t, false);
        if count > 0 {
            pairs.for_each(|pair| take(sizes.q(pair) + w, false));
        } else {
            take(v + number - 1, number == 2);
        }
    }
}
