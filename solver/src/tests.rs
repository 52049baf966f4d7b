//! The solver against brute force on small random formulas, always the same ones.

use crate::cdcl::Solver;
use crate::dimacs;

/// A linear congruential generator, its upper bits.
struct Numbers(u64);

impl Numbers {
    fn below(&mut self, bound: u64) -> u64 {
        self.0 = self.0.wrapping_mul(6_364_136_223_846_793_005).wrapping_add(1_442_695_040_888_963_407);
        (self.0 >> 33) % bound
    }
}

/// Clauses of 0 to 4 literals (rarely 0 or 1), doubled literals and tautologies included.
fn random_formula(numbers: &mut Numbers) -> (usize, Vec<Vec<i32>>) {
    let vars = 1 + numbers.below(10) as usize;
    let count = numbers.below(6 * vars as u64);
    let clauses = (0..count)
        .map(|_| {
            let length = [3, 3, 3, 3, 2, 2, 4, 4, 3, 1][numbers.below(10) as usize] - (numbers.below(60) == 0) as u64;
            (0..length)
                .map(|_| {
                    let var = 1 + numbers.below(vars as u64) as i32;
                    if numbers.below(2) == 0 {
                        var
                    } else {
                        -var
                    }
                })
                .collect()
        })
        .collect();
    (vars, clauses)
}

fn holds(clauses: &[Vec<i32>], model: &[bool]) -> bool {
    clauses.iter().all(|clause| clause.iter().any(|&lit| model[lit.unsigned_abs() as usize - 1] == (lit > 0)))
}

fn brute_force_count(vars: usize, clauses: &[Vec<i32>]) -> usize {
    (0u32..1 << vars)
        .filter(|bits| holds(clauses, &(0..vars).map(|var| bits >> var & 1 == 1).collect::<Vec<_>>()))
        .count()
}

fn solver_of(vars: usize, clauses: &[Vec<i32>]) -> Solver {
    let mut solver = Solver::new(vars);
    clauses.iter().for_each(|clause| solver.add_clause(clause));
    solver
}

#[test]
fn counts_of_random_formulas() {
    let mut numbers = Numbers(7);
    let (mut satisfiable, mut unsatisfiable) = (0, 0);
    for _ in 0..4000 {
        let (vars, clauses) = random_formula(&mut numbers);
        let expected = brute_force_count(vars, &clauses);
        // Every model once, each blocked after it is found.
        let mut solver = solver_of(vars, &clauses);
        let mut found = 0;
        while let Some(model) = solver.solve() {
            assert!(holds(&clauses, &model), "{clauses:?}");
            found += 1;
            assert!(found <= expected, "{clauses:?}");
            let block: Vec<i32> = model.iter().zip(1..).map(|(&value, var)| if value { -var } else { var }).collect();
            solver.add_clause(&block);
        }
        assert_eq!(found, expected, "{clauses:?}");
        if expected > 0 {
            satisfiable += 1
        } else {
            unsatisfiable += 1
        }
    }
    println!("{satisfiable} satisfiable, {unsatisfiable} unsatisfiable");
    assert!(satisfiable > 500 && unsatisfiable > 500);
}

/// Pigeons in one hole fewer: no model, and thousands of conflicts for eight.
fn pigeons(count: i32) -> (usize, Vec<Vec<i32>>) {
    let holes = count - 1;
    let place = |pigeon: i32, hole: i32| pigeon * holes + hole + 1;
    let mut clauses: Vec<Vec<i32>> = (0..count).map(|p| (0..holes).map(|h| place(p, h)).collect()).collect();
    for hole in 0..holes {
        for p in 0..count {
            clauses.extend((0..p).map(|q| vec![-place(p, hole), -place(q, hole)]));
        }
    }
    ((count * holes) as usize, clauses)
}

#[test]
fn pigeons_have_no_model() {
    for count in 2..=8 {
        let (vars, clauses) = pigeons(count);
        assert!(solver_of(vars, &clauses).solve().is_none());
        let mut removing = solver_of(vars, &clauses);
        removing.learnt_limit = 10;
        assert!(removing.solve().is_none());
        // The limit grows with each removal.
        assert!(count < 8 || removing.learnt_limit > 10);
        // Without the first pigeon's clause there is one.
        let model = solver_of(vars, &clauses[1..]).solve().expect("a model");
        assert!(holds(&clauses[1..], &model));
    }
}

/// Formulas too large for brute force: models are tested, and removal of learnt clauses changes no verdict.
#[test]
fn removal_changes_no_verdict() {
    let mut numbers = Numbers(13);
    let (mut satisfiable, mut removed) = (0, 0);
    for _ in 0..40 {
        let mut literal = || (1 + numbers.below(90) as i32) * (1 - 2 * numbers.below(2) as i32);
        let clauses: Vec<Vec<i32>> = (0..385).map(|_| (0..3).map(|_| literal()).collect()).collect();
        let mut removing = solver_of(90, &clauses);
        removing.learnt_limit = 10;
        let model = removing.solve();
        assert_eq!(model.is_some(), solver_of(90, &clauses).solve().is_some());
        assert!(model.iter().all(|model| holds(&clauses, model)));
        satisfiable += model.is_some() as usize;
        removed += (removing.learnt_limit > 10) as usize;
    }
    println!("{satisfiable} of 40 satisfiable, clauses removed in {removed}");
    assert!((5..=35).contains(&satisfiable) && removed > 10);
}

#[test]
fn equal_input_gives_equal_output() {
    let mut numbers = Numbers(11);
    for _ in 0..50 {
        let (vars, clauses) = random_formula(&mut numbers);
        assert_eq!(solver_of(vars, &clauses).solve(), solver_of(vars, &clauses).solve());
    }
}

#[test]
fn formulas_and_answers_as_text() {
    let formula = dimacs::parse("c x\np cnf 3 2\n1 -2 0 -3\n0\n").expect("a formula");
    assert_eq!((formula.vars, formula.clauses), (3, vec![vec![1, -2], vec![-3]]));
    assert_eq!(dimacs::parse("p cnf 0 0\n").map(|formula| formula.vars), Ok(0));
    for text in
        ["", "1 0\n", "p cnf 1 1\n2 0\n", "p cnf 1 1\n1\n", "p cnf 1 2\n1 0\n", "p cnf x 1\n", "p cnf 1 1\none 0\n"]
    {
        assert!(dimacs::parse(text).is_err(), "{text}");
    }
    assert_eq!(dimacs::model_text(&[true, false]), "s SATISFIABLE\nv 1 -2 0\n");
    assert_eq!(dimacs::model_text(&[]), "s SATISFIABLE\nv 0\n");
    assert_eq!(Solver::new(0).solve(), Some(vec![]));
}
