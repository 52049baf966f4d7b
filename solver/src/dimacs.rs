//! DIMACS CNF in, the answer form of the SAT competitions out.

pub struct Formula {
    pub vars: usize,
    pub clauses: Vec<Vec<i32>>,
}

/// More variables than any clause file here has; a larger number is taken for a mistake.
const MAX_VARS: usize = 10_000_000;

/// Reads a formula; a line's fault in words. Lines that start with c are skipped, clauses may go over several lines.
pub fn parse(text: &str) -> Result<Formula, String> {
    let mut header: Option<(usize, usize)> = None;
    let mut clauses = Vec::new();
    let mut clause = Vec::new();
    for (at, line) in text.lines().enumerate() {
        let fault = |what: &str| format!("line {}: {what}", at + 1);
        if line.starts_with('c') {
            continue;
        }
        if let Some(rest) = line.strip_prefix("p cnf ") {
            let numbers: Option<Vec<usize>> = rest.split_whitespace().map(|word| word.parse().ok()).collect();
            match numbers.as_deref() {
                Some(&[vars, count]) if header.is_none() && vars <= MAX_VARS => header = Some((vars, count)),
                _ => return Err(fault("not a header that can be used")),
            }
            continue;
        }
        for word in line.split_whitespace() {
            let (vars, _) = header.ok_or_else(|| fault("a clause before the header"))?;
            match word.parse::<i32>() {
                Ok(0) => clauses.push(std::mem::take(&mut clause)),
                Ok(number) if number.unsigned_abs() as usize <= vars => clause.push(number),
                _ => return Err(fault("not a literal of this formula")),
            }
        }
    }
    let (vars, count) = header.ok_or("no header")?;
    if !clause.is_empty() {
        return Err("the last clause has no 0".to_string());
    }
    if clauses.len() != count {
        return Err(format!("{} clauses, {count} announced", clauses.len()));
    }
    Ok(Formula { vars, clauses })
}

/// The two lines of a model.
pub fn model_text(model: &[bool]) -> String {
    let literals =
        model.iter().zip(1..).map(|(&value, var)| if value { format!(" {var}") } else { format!(" -{var}") });
    format!("s SATISFIABLE\nv{} 0\n", literals.collect::<String>())
}
