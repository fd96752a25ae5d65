//! Solutions of clause sets, found without knowing what the clauses mean.

use crate::make::prove::Literals;

/// How many solutions the clauses have over the variables they mention, when
/// variables 1, 2, … have the fixed values; counting stops at `most`.
pub fn solutions(clauses: &[Literals], fixed: &[bool], most: usize) -> usize {
    let highest = clauses
        .iter()
        .flatten()
        .map(|literal| *literal as usize / 2)
        .max()
        .unwrap_or(0);
    let mut values = vec![None; highest.max(fixed.len()) + 1];
    for (index, &value) in fixed.iter().enumerate() {
        values[index + 1] = Some(value);
    }
    count(clauses, &mut values, most)
}

type Values = Vec<Option<bool>>;

fn count(clauses: &[Literals], values: &mut Values, most: usize) -> usize {
    let mut trail = Vec::new();
    let found = if follow_units(clauses, values, &mut trail) {
        match open_variable(clauses, values) {
            None => 1,
            Some(variable) => split(clauses, values, variable, most),
        }
    } else {
        0
    };
    for variable in trail {
        values[variable] = None;
    }
    found
}

fn split(clauses: &[Literals], values: &mut Values, variable: usize, most: usize) -> usize {
    let mut found = 0;
    for value in [false, true] {
        if found < most {
            values[variable] = Some(value);
            found += count(clauses, values, most - found);
        }
    }
    values[variable] = None;
    found
}

/// False when a clause came out false.
fn follow_units(clauses: &[Literals], values: &mut Values, trail: &mut Vec<usize>) -> bool {
    loop {
        let mut quiet = true;
        for clause in clauses {
            if clause
                .iter()
                .any(|&literal| value(values, literal) == Some(true))
            {
                continue;
            }
            let mut open = clause
                .iter()
                .filter(|&&literal| value(values, literal).is_none());
            match (open.next(), open.next()) {
                (None, _) => return false,
                (Some(&literal), None) => {
                    let variable = literal as usize / 2;
                    values[variable] = Some(literal % 2 == 0);
                    trail.push(variable);
                    quiet = false;
                }
                _ => {}
            }
        }
        if quiet {
            return true;
        }
    }
}

fn value(values: &Values, literal: u16) -> Option<bool> {
    values[literal as usize / 2].map(|value| value == (literal % 2 == 0))
}

fn open_variable(clauses: &[Literals], values: &Values) -> Option<usize> {
    let mut literals = clauses.iter().flatten();
    literals
        .find(|&&literal| value(values, literal).is_none())
        .map(|&l| l as usize / 2)
}
