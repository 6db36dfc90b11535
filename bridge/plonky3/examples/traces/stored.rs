//! Stored objects and the answers of `air_check flat`: what it audits is imported, and p3-air's own check agrees.

use crate::answer;
use air_check_bridge::{AuditedField, Imported, LabelledAir, import};
use p3_air::{AirLayout, BaseAir, constraint_degree_from_poly_degree, get_symbolic_constraints};
use p3_baby_bear::BabyBear;
use p3_matrix::Matrix;
use serde_json::Value;
use std::collections::HashMap;
use std::panic::{self, AssertUnwindSafe};
use std::{fs, io};

/// Compares the runs of `air_check flat` in these tables with p3-air. Answers the number of runs over the fields of
/// this build, and how many of them differ.
pub fn compare(tables: &[String]) -> io::Result<(usize, usize)> {
    let (mut count, mut differ) = (0, 0);
    panic::set_hook(Box::new(|_| ())); // p3-air panics for what air_check refuses
    for table in tables {
        for (object, wanted) in runs_of(&fs::read_to_string(table)?) {
            let Some(over_field) = call_for(&object) else {
                continue;
            };
            if !wanted.as_deref().is_none_or(is_counted) {
                continue;
            }
            count += 1;
            let found = over_field(&object);
            if found != wanted {
                differ += 1;
                eprintln!("{table}: {found:?} for {wanted:?}: {object}");
            }
        }
    }
    Ok((count, differ))
}

/// Whether p3-air can count the answer's degree. It computes the degrees of polynomials in `usize`, where those over
/// rows overflow first.
fn is_counted(answer: &str) -> bool {
    let line = answer.lines().next().unwrap_or_default();
    let degree = line.strip_prefix("degree ").map(str::parse::<u64>);
    degree.is_none_or(|degree| degree.is_ok_and(|it| it < 1 << 32))
}

/// The objects of a table's runs of `air_check flat`, with the answers; no answer if the object is refused. The lines:
///
/// ```text
/// NAME = input OBJECT
/// run flat < NAME => status N ANSWER
/// run flat <<< OBJECT => status N ANSWER
/// ```
fn runs_of(table: &str) -> Vec<(String, Option<String>)> {
    let mut inputs = HashMap::new();
    let mut runs = Vec::new();
    for line in table.lines() {
        if let Some((name, object)) = line.split_once(" = input ") {
            inputs.insert(name, object);
        }
        let run = line.strip_prefix("run flat ");
        if let Some((input, answer)) = run.and_then(|run| run.rsplit_once(" => status ")) {
            let named = input.strip_prefix("< ").and_then(|name| inputs.get(name));
            let object = named.copied().or(input.strip_prefix("<<< "));
            let (status, answer) = answer.split_once(' ').expect("an answer has a text");
            let answer = text_of(answer).filter(|_| status != "2");
            runs.extend(object.and_then(text_of).map(|object| (object, answer)));
        }
    }
    runs
}

/// The text of a word in a table, whose characters are bytes; none if it isn't UTF-8.
fn text_of(word: &str) -> Option<String> {
    let mut bytes = Vec::new();
    let mut characters = word.chars();
    while let Some(character) = characters.next() {
        let character = match character {
            '\\' => match characters.next()? {
                's' => ' ',
                'n' => '\n',
                'r' => '\r',
                't' => '\t',
                other => other,
            },
            other => other,
        };
        bytes.push(u8::try_from(u32::from(character)).ok()?);
    }
    String::from_utf8(bytes).ok()
}

type Call = fn(&str) -> Option<String>;

/// The call for an object over its field, if this build has the field.
fn call_for(object: &str) -> Option<Call> {
    let object: Value = serde_json::from_str(object).unwrap_or_default();
    match object.get("field").map(Value::as_str) {
        None | Some(Some("BabyBear")) => Some(answer_over::<BabyBear>),
        #[cfg(feature = "koala-bear")]
        Some(Some("KoalaBear")) => Some(answer_over::<p3_koala_bear::KoalaBear>),
        #[cfg(feature = "mersenne-31")]
        Some(Some("Mersenne31")) => Some(answer_over::<p3_mersenne_31::Mersenne31>),
        #[cfg(feature = "goldilocks")]
        Some(Some("Goldilocks")) => Some(answer_over::<p3_goldilocks::Goldilocks>),
        Some(_) => None,
    }
}

/// What p3-air answers for the object; nothing if the import fails or p3-air panics.
fn answer_over<F: AuditedField>(text: &str) -> Option<String> {
    let Imported {
        air,
        trace,
        public_values,
    } = import::<F>(text).ok()?;
    let object: Value = serde_json::from_str(text).ok()?;
    let number = |name| object.get(name).and_then(Value::as_u64);
    let number = |name| number(name).map(|it| usize::try_from(it).expect("64 bits fit"));
    let air = air.with_labels();
    let weight = number("transition_weight").unwrap_or(0);
    let answer = || {
        let degree = degree_of(&air, trace.height(), weight);
        answer(&air, &trace, &public_values, number("cap"), degree)
    };
    panic::catch_unwind(AssertUnwindSafe(answer)).ok()
}

/// The degree, at least that of the polynomials: p3-air, without periodic columns, has degree 0 for the square of the
/// transition selector. (docs/PORT.md)
fn degree_of<F: AuditedField>(air: &LabelledAir<F>, height: usize, weight: usize) -> usize {
    let degree = crate::degree_of::<F, _>(air, height, weight);
    if weight > 0 {
        return degree;
    }
    let periods: Vec<usize> = air.periodic_columns().iter().map(Vec::len).collect();
    let constraints = get_symbolic_constraints::<F, _>(air, AirLayout::from_air::<F>(air));
    let degrees = constraints
        .iter()
        .map(|it| it.poly_degree(height, &periods));
    degree.max(constraint_degree_from_poly_degree(
        degrees.max().unwrap_or(0),
        height,
    ))
}
