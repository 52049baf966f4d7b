//! Assignments that fit a set of atoms and levels, whether or not the levels are those of the stages.

use plain::Program;

/// Each variable's value: t by the set, v by the levels, the others by these.
pub fn values(program: &Program, set: &[u8], levels: &[u8]) -> Vec<u8> {
    let enough = |bits: &usize| 1 << bits >= program.atoms + 2;
    let width = (1..).find(enough).expect("a width");
    let holds = |atom: &u8| set[*atom as usize - 1] == 1;
    let level = |atom: u8| levels[atom as usize - 1] as usize;
    let low = |number: usize, bit: usize| number % (2 << bit);
    let (mut bodies, mut founding, mut below) = (Vec::new(), Vec::new(), Vec::new());
    for rule in program.rules() {
        let (positive, negative) = (program.positive(rule), program.negative(rule));
        let body = positive.iter().all(holds) && !negative.iter().any(holds);
        let y = level(rule.head);
        bodies.push(body as u8);
        founding.push((body && positive.iter().all(|&b| level(b) < y)) as u8);
        for x in positive.iter().flat_map(|&b| [level(b), level(b) + 1]) {
            below.extend((0..width).map(|bit| (low(x, bit) < low(y, bit)) as u8));
        }
    }
    let counter = |number: usize| (0..width).map(move |bit| (number >> bit & 1) as u8);
    let mut values = [set, &bodies, &founding].concat();
    for add in 0..2 {
        values.extend(levels.iter().flat_map(|&l| counter(l as usize + add)));
    }
    values.extend(below);
    values
}
