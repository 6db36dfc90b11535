//! Exports traces, with the results of p3-air for them, and compares each AIR with the one read from its object.
//!
//!     traces FOLDER              writes each trace: FOLDER/NAME, and FOLDER/NAME.stdout, the text that air_check must
//!                                print; the last line says on how many ways back the AIRs differ
//!     traces --table             prints those that are good or changed by hand as a table of crates/test_program
//!     traces --stored TABLE..    compares the stored answers of air_check in such tables with p3-air's

mod airs;
mod back;
#[cfg(any(
    feature = "koala-bear",
    feature = "mersenne-31",
    feature = "goldilocks"
))]
mod fields;
mod folders;
mod stored;
mod traces;

use air_check_bridge::{AuditedField, LabellingBuilder, Options, export_labelled};
use folders::{Folder, Packed};
use p3_air::{
    Air, AirLayout, ConstraintFailure, DebugConstraintBuilder, SymbolicAirBuilder,
    check_all_constraints, get_max_constraint_degree, get_symbolic_constraints,
};
use p3_baby_bear::BabyBear;
use p3_field::ExtensionField;
use p3_field::extension::BinomialExtensionField;
use p3_matrix::Matrix;
use p3_matrix::dense::RowMajorMatrix;
use serde_json::Value;
use std::{env, fs, io, path::Path, process::ExitCode};

/// The modulus of a field, written out: it doesn't come from the crate that is tried.
pub fn modulus<F: AuditedField>() -> u64 {
    match F::NAME {
        "BabyBear" => 2_013_265_921,
        "KoalaBear" => 2_130_706_433,
        "Mersenne31" => 2_147_483_647,
        "Goldilocks" => 18_446_744_069_414_584_321,
        name => unreachable!("the field {name} has no modulus here"),
    }
}

/// The elements that whole numbers stand for.
pub fn elements<F: AuditedField>(numbers: &[u64]) -> Vec<F> {
    numbers.iter().copied().map(F::from_u64).collect()
}

/// A field, and an extension in which constraints are folded.
pub trait Extended: AuditedField {
    type Extension: ExtensionField<Self>;
}

impl Extended for BabyBear {
    type Extension = BinomialExtensionField<Self, 4>;
}

/// An AIR that is recorded with its labels and without, checked on rows, and folded.
pub trait Tried<F: Extended>:
    Air<SymbolicAirBuilder<F>>
    + Air<LabellingBuilder<F>>
    + for<'a> Air<DebugConstraintBuilder<'a, F>>
    + for<'a> Air<Folder<'a, F, F>>
    + for<'a> Air<Folder<'a, F, Packed<F>>>
    + for<'a> Air<Folder<'a, F, F::Extension>>
{
}

impl<F: Extended, A> Tried<F> for A where
    A: Air<SymbolicAirBuilder<F>>
        + Air<LabellingBuilder<F>>
        + for<'a> Air<DebugConstraintBuilder<'a, F>>
        + for<'a> Air<Folder<'a, F, F>>
        + for<'a> Air<Folder<'a, F, Packed<F>>>
        + for<'a> Air<Folder<'a, F, F::Extension>>
{
}

/// A trace of an AIR as an object, and the text that air_check must print for it.
pub struct Case {
    name: String,
    object: Value,
    answer: String,
    by_hand: bool,
    /// In what the AIR that is read from the object differs.
    back: Option<&'static str>,
}

impl Case {
    /// Whether the answer has a failure.
    fn is_bad(&self) -> bool {
        self.answer.contains("\nrow ")
    }
}

/// A trace with its public values, by their numbers.
#[derive(Clone)]
pub struct Given {
    pub width: usize,
    pub rows: Vec<u64>,
    pub public_values: Vec<u64>,
}

/// The case of a trace.
pub fn case<F, A>(name: String, air: &A, given: &Given, options: &Options, by_hand: bool) -> Case
where
    F: Extended,
    A: Tried<F>,
{
    let trace = RowMajorMatrix::new(elements(&given.rows), given.width);
    let public_values: Vec<F> = elements(&given.public_values);
    let object =
        export_labelled::<F, A>(air, &trace, &public_values, options).expect("it is exported");
    let degree = degree_of::<F, A>(air, trace.height(), options.transition_weight);
    Case {
        name,
        answer: answer(air, &trace, &public_values, options.cap, degree),
        by_hand,
        back: back::compare(air, &trace, &public_values, options, &object).err(),
        object,
    }
}

/// The degree, and p3-air's counts and failures, as air_check writes them.
fn answer<F, A>(
    air: &A,
    trace: &RowMajorMatrix<F>,
    public_values: &[F],
    cap: Option<usize>,
    degree: usize,
) -> String
where
    F: AuditedField,
    A: for<'a> Air<DebugConstraintBuilder<'a, F>>,
{
    let report = check_all_constraints(air, trace, public_values, cap);
    let mut answer = format!(
        "degree {degree}\nrows {}\nconstraints {}\n",
        report.total_rows, report.total_constraints_per_row
    );
    for failure in &report.failures {
        answer += &failure_line(failure);
    }
    answer
}

/// The inferred degree: by p3-air's call if the transition selector is linear, else the greatest of its expressions'.
fn degree_of<F, A>(air: &A, height: usize, weight: usize) -> usize
where
    F: AuditedField,
    A: Air<SymbolicAirBuilder<F>>,
{
    let layout = AirLayout::from_air::<F>(air);
    if weight == 0 {
        return get_max_constraint_degree::<F, A>(air, layout, height);
    }
    let constraints = get_symbolic_constraints::<F, A>(air, layout);
    constraints
        .iter()
        .map(|it| it.degree_multiple_with_transition(weight))
        .max()
        .unwrap_or(0)
}

/// A failure's line.
fn failure_line(failure: &ConstraintFailure) -> String {
    let ConstraintFailure {
        row,
        constraint,
        label,
    } = failure;
    match label {
        Some(label) => format!("row {row}: #{constraint} {label:?}\n"),
        None => format!("row {row}: #{constraint}\n"),
    }
}

/// Writes the input and the wanted output of each case.
fn write_cases(folder: &Path, cases: &[Case]) -> io::Result<()> {
    for case in cases {
        fs::write(folder.join(&case.name), case.object.to_string())?;
        fs::write(folder.join(format!("{}.stdout", case.name)), &case.answer)?;
    }
    Ok(())
}

/// Prints the cases of the table.
fn print_table(cases: &[Case]) {
    println!("# the program");
    println!("# Written by bridge/plonky3/try FOLDER --table.");
    println!(
        "# Traces of AIRs that p3-air recorded, exported, and what p3-air's own check and degree say of them."
    );
    for case in cases.iter().filter(|case| case.by_hand) {
        let answer = case.answer.replace('\\', "\\\\").replace('\n', "\\n");
        println!("\n# {}", case.name.replace('_', " "));
        println!(
            "run flat <<< {} => status {} {answer}",
            case.object,
            u8::from(case.is_bad())
        );
    }
}

/// Prints the cases that differ on the way back, and their number. Answers whether there is none.
fn print_ways_back(cases: &[Case]) -> bool {
    let mut differ = 0;
    for case in cases {
        if let Some(what) = case.back {
            differ += 1;
            println!("{} differs on the way back: {what}", case.name);
        }
    }
    println!("{} ways back, {differ} differ", cases.len());
    !cases.is_empty() && differ == 0
}

/// Prints how many stored answers differ. Answers whether there is none.
fn print_stored(tables: &[String]) -> io::Result<bool> {
    let (count, differ) = stored::compare(tables)?;
    println!("{count} stored objects, {differ} differ");
    Ok(count > 0 && differ == 0)
}

/// Whether all is as it must be.
fn run(words: &[String]) -> io::Result<bool> {
    match words {
        [word, tables @ ..] if word == "--stored" => print_stored(tables),
        [word] if word == "--table" => {
            print_table(&traces::all());
            Ok(true)
        }
        [folder] => {
            let cases = traces::all();
            write_cases(Path::new(folder), &cases)?;
            Ok(print_ways_back(&cases))
        }
        _ => Err(io::Error::other(
            "usage: traces FOLDER | traces --table | traces --stored TABLE..",
        )),
    }
}

fn main() -> ExitCode {
    let words: Vec<String> = env::args().skip(1).collect();
    match run(&words) {
        Ok(true) => ExitCode::SUCCESS,
        Ok(false) => ExitCode::FAILURE,
        Err(error) => {
            eprintln!("traces: {error}");
            ExitCode::FAILURE
        }
    }
}
