//! Audits by the program `air_check`.

use crate::{AuditError, AuditedField, LabellingBuilder, Options, export_labelled};
use p3_air::{Air, BoundaryPublic};
use p3_field::{ExtensionField, PrimeCharacteristicRing};
use p3_matrix::dense::RowMajorMatrix;
use serde_json::{Value, json};
use std::ffi::{OsStr, OsString};
use std::io::{self, Write};
use std::process::{Command, Output, Stdio};
use std::{env, fmt};

/// A further row is explained only while there are fewer failures than this.
const EXPLAINED: u64 = 10;

/// What `air_check` finds. As a text it is `explained` and the number of failures.
#[derive(Clone, Debug, PartialEq, Eq)]
pub struct Report {
    /// The inferred degree of the constraints.
    pub degree: usize,
    /// The number of rows.
    pub rows: usize,
    /// The number of constraints in a row.
    pub constraints: usize,
    /// All failures if there is no cap: those of constraints row by row, and then those of boundary values.
    pub failures: Vec<Failure>,
    /// The text of `air_check explain` for the first failures: the counts, and for each failure its constraint and the
    /// values that it reads. A further row is explained only while there are fewer than ten failures.
    pub explained: String,
}

/// What a trace violates.
#[derive(Clone, Debug, PartialEq, Eq)]
pub enum Failure {
    /// A constraint that isn't zero in a row.
    Constraint {
        /// The row, from 0.
        row: usize,
        /// The constraint's index, from 0, among those over the base field.
        index: usize,
        /// Its label.
        label: Option<String>,
    },
    /// A boundary value that the trace doesn't have.
    BoundaryValue {
        /// The row, from 0.
        row: usize,
        /// The boundary value.
        cell: BoundaryPublic,
    },
}

impl fmt::Display for Report {
    fn fmt(&self, f: &mut fmt::Formatter<'_>) -> fmt::Result {
        write!(f, "{}failures {}", self.explained, self.failures.len())
    }
}

/// Has `air_check` audit an AIR without constraints over an extension, on this trace with these public values. The
/// constraints are those that p3-air records by the AIR's own layout; the transition selector is linear.
///
/// The program is the one that the variable `AIR_CHECK` names, or else `air_check` on `PATH`. Its messages go to
/// standard error. Panics where p3-air does: where the AIR reads an entry that its layout lacks.
///
/// # Errors
///
/// As [`AuditError`] says. A trace that violates constraints is no error.
pub fn audit<F, A>(
    air: &A,
    trace: &RowMajorMatrix<F>,
    public_values: &[F],
) -> Result<Report, AuditError>
where
    F: AuditedField,
    A: Air<LabellingBuilder<F>>,
{
    audit_with::<F, A>(air, trace, public_values, &Options::default())
}

/// Audits as `audit` does, with options, an AIR that is recorded with extension `EF` (the field itself if it has none).
/// The AIR's field is the prime field below `EF`.
///
/// # Errors
///
/// As `audit`.
pub fn audit_with<EF, A>(
    air: &A,
    trace: &RowMajorMatrix<EF::PrimeSubfield>,
    public_values: &[EF::PrimeSubfield],
    options: &Options,
) -> Result<Report, AuditError>
where
    EF: PrimeCharacteristicRing + ExtensionField<<EF as PrimeCharacteristicRing>::PrimeSubfield>,
    EF::PrimeSubfield: AuditedField,
    A: Air<LabellingBuilder<EF::PrimeSubfield, EF>>,
{
    let object = export_labelled::<EF, A>(air, trace, public_values, options)?;
    audit_object(&program(), object, air.public_boundary_io())
}

/// The program that `AIR_CHECK` names, or else the one on `PATH`.
fn program() -> OsString {
    env::var_os("AIR_CHECK").unwrap_or_else(|| "air_check".into())
}

/// The program's report on the object of an AIR with these boundary values.
fn audit_object(
    program: &OsStr,
    mut object: Value,
    cells: &[BoundaryPublic],
) -> Result<Report, AuditError> {
    let (is_good, found) = call(program, "flat", &object)?;
    let report = report_of(&found, is_good, &object, cells);
    let mut report = report.ok_or_else(|| AuditError::Answer {
        program: program.to_owned(),
        status: Some(i32::from(!is_good)),
        answer: found.clone(),
    })?;
    if !is_good {
        let cap = object.get("cap").and_then(Value::as_u64);
        object["cap"] = json!(cap.map_or(EXPLAINED, |cap| cap.min(EXPLAINED)));
        report.explained = call(program, "explain", &object)?.1;
    }
    Ok(report)
}

/// Whether the program finds no failure, and what it prints.
fn call(program: &OsStr, word: &str, object: &Value) -> Result<(bool, String), AuditError> {
    let run = run(program, word, object.to_string().as_bytes());
    let (written, output) = run.map_err(|error| {
        let is_missing = error.kind() == io::ErrorKind::NotFound;
        if is_missing && program == "air_check" {
            return AuditError::NoProgram;
        }
        let program = program.to_owned();
        AuditError::Run { program, error }
    })?;
    let answer = String::from_utf8_lossy(&output.stdout).into_owned();
    match (output.status.code(), answer.strip_prefix("refused: ")) {
        (Some(status @ 0..=1), None) if written.is_ok() => Ok((status == 0, answer)),
        (Some(2), Some(reason)) => Err(AuditError::Refused(reason.trim_end().to_owned())),
        (status, _) => Err(AuditError::Answer {
            program: program.to_owned(),
            status,
            answer,
        }),
    }
}

/// Runs the program on an input, which it reads to the end before it prints. Also answers whether it has read it.
fn run(program: &OsStr, word: &str, input: &[u8]) -> io::Result<(io::Result<()>, Output)> {
    let mut child = Command::new(program)
        .arg(word)
        .stdin(Stdio::piped())
        .stdout(Stdio::piped())
        .spawn()?;
    let pipe = child.stdin.take();
    let written = pipe.map_or(Ok(()), |mut pipe| pipe.write_all(input));
    Ok((written, child.wait_with_output()?))
}

/// The report that the text of `air_check flat` says. It has no failures exactly if the status is good.
fn report_of(
    found: &str,
    is_good: bool,
    object: &Value,
    cells: &[BoundaryPublic],
) -> Option<Report> {
    let mut lines = found.lines();
    let mut count = |name: &str| lines.next()?.strip_prefix(name)?.parse().ok();
    let (degree, rows, constraints) = (count("degree ")?, count("rows ")?, count("constraints ")?);
    let failures = lines.map(|line| failure_of(line, constraints, object, cells));
    let failures: Vec<Failure> = failures.collect::<Option<_>>()?;
    (failures.is_empty() == is_good).then(|| Report {
        degree,
        rows,
        constraints,
        failures,
        explained: found.to_owned(),
    })
}

/// The failure that a line says: `row 3: #2 "label"`. Boundary values are numbered after the constraints.
fn failure_of(
    line: &str,
    constraints: usize,
    object: &Value,
    cells: &[BoundaryPublic],
) -> Option<Failure> {
    let (row, place) = line.strip_prefix("row ")?.split_once(": #")?;
    let index = place.split_once(' ').map_or(place, |(index, _)| index);
    let (row, index): (usize, usize) = (row.parse().ok()?, index.parse().ok()?);
    if let Some(at) = index.checked_sub(constraints) {
        let cell = *cells.get(at)?;
        return Some(Failure::BoundaryValue { row, cell });
    }
    let label = object
        .get("labels")
        .and_then(|labels| labels[index].as_str());
    let label = label.filter(|label| !label.is_empty()).map(str::to_owned);
    Some(Failure::Constraint { row, index, label })
}

#[cfg(test)]
mod tests {
    use super::*;
    use p3_air::BoundaryEnd;

    const FOUND: &str = "degree 2\nrows 4\nconstraints 2\nrow 1: #1 \"bit\"\nrow 3: #3 \"..\"\n";
    const CELLS: [BoundaryPublic; 2] = [
        BoundaryPublic::new(5, BoundaryEnd::First, 0),
        BoundaryPublic::new(5, BoundaryEnd::Last, 1),
    ];

    fn report(found: &str, is_good: bool) -> Option<Report> {
        report_of(found, is_good, &json!({"labels": ["", "bit"]}), &CELLS)
    }

    #[test]
    fn reports_are_read() {
        let report = report(FOUND, false).unwrap();
        assert_eq!((report.degree, report.rows, report.constraints), (2, 4, 2));
        let label = Some("bit".to_owned());
        let failures = [
            Failure::Constraint {
                row: 1,
                index: 1,
                label,
            },
            Failure::BoundaryValue {
                row: 3,
                cell: CELLS[1],
            },
        ];
        assert_eq!(report.failures, failures);
        assert_eq!(report.to_string(), format!("{FOUND}failures 2"));
    }

    #[test]
    fn what_is_no_report_is_not_read() {
        let counts = "degree 2\nrows 4\nconstraints 2\n";
        assert!(report(counts, true).is_some());
        assert!(report(counts, false).is_none());
        assert!(report(FOUND, true).is_none());
        assert!(report("degree 2\nrows 4\n", true).is_none());
        assert!(report("degree -2\nrows 4\nconstraints 2\n", true).is_none());
        for line in [
            "row 1",
            "row 1: #4",
            "row 1: 0",
            "rows 1: #0",
            "row 1: #0x",
            "failures 1",
        ] {
            assert!(report(&format!("{counts}{line}\n"), false).is_none());
        }
    }

    fn error_of(program: &str) -> String {
        let error = audit_object(OsStr::new(program), json!({}), &[]).unwrap_err();
        format!("{error:?}")
    }

    #[test]
    fn other_programs_are_no_audits() {
        assert_eq!(
            error_of("true"),
            r#"true ended with status Some(0), having printed """#
        );
        assert_eq!(
            error_of("false"),
            r#"false ended with status Some(1), having printed """#
        );
        assert!(error_of("./no_such_program").starts_with("./no_such_program: "));
    }

    #[test]
    fn a_missing_program_is_to_be_built() {
        let said = AuditError::NoProgram.to_string();
        assert!(said.contains("/build, and set AIR_CHECK="), "{said}");
    }
}
