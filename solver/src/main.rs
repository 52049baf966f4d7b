//! A small SAT solver for `certify` where no other is installed: `solver FILE`. It prints "s SATISFIABLE" with a
//! model, or "s UNSATISFIABLE"; its status is 10 or 20, or 1 for a file that holds no formula.
//! Outside the proved part: a model that it prints is checked like that of any other solver.

mod cdcl;
mod dimacs;
#[cfg(test)]
mod tests;

use std::io::Write;
use std::process::ExitCode;

fn formula() -> Result<dimacs::Formula, String> {
    let path = std::env::args_os().nth(1).ok_or("usage: solver FILE")?;
    dimacs::parse(&std::fs::read_to_string(path).map_err(|error| error.to_string())?)
}

fn main() -> ExitCode {
    let formula = match formula() {
        Ok(formula) => formula,
        Err(fault) => {
            eprintln!("solver: {fault}");
            return ExitCode::from(1);
        }
    };
    let mut solver = cdcl::Solver::new(formula.vars);
    for clause in &formula.clauses {
        solver.add_clause(clause);
    }
    let (answer, status) = match solver.solve() {
        Some(model) => (dimacs::model_text(&model), 10),
        None => ("s UNSATISFIABLE\n".to_string(), 20),
    };
    match std::io::stdout().write_all(answer.as_bytes()) {
        Ok(()) => ExitCode::from(status),
        Err(_) => ExitCode::from(1),
    }
}
