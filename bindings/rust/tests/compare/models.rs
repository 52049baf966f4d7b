//! Stable models, and answers that show them.

use plain::Program;

/// The least model of the reduct by `set`.
pub fn least(program: &Program, set: &[u8]) -> Vec<u8> {
    let mut least = vec![0; program.atoms];
    loop {
        let before = least.clone();
        for rule in program.rules() {
            let (positive, negative) = (program.positive(rule), program.negative(rule));
            if negative.iter().all(|&c| set[c as usize - 1] == 0)
                && positive.iter().all(|&b| least[b as usize - 1] == 1)
            {
                least[rule.head as usize - 1] = 1;
            }
        }
        if least == before {
            return least;
        }
    }
}

/// What every stable model holds, and what none goes beyond: approached from below and from above.
pub fn bounds(program: &Program) -> (Vec<u8>, Vec<u8>) {
    let (mut lower, mut upper) = (vec![0; program.atoms], vec![1; program.atoms]);
    loop {
        let (below, above) = (least(program, &upper), least(program, &lower));
        if (&below, &above) == (&lower, &upper) {
            return (lower, upper);
        }
        (lower, upper) = (below, above);
    }
}

/// Each variable's literal.
pub fn literals(values: &[u8]) -> Vec<String> {
    let sign = |value: u8| if value == 1 { "" } else { "-" };
    let literals = (1..).zip(values);
    literals
        .map(|(x, &value)| format!("{}{x}", sign(value)))
        .collect()
}
