//! The way back: an AIR is compared with the one that is read from its object.

use crate::folders::{Folder, Packed, Point};
use crate::{Extended, Tried, elements, modulus};
use air_check_bridge::{AuditedField, FlatAir, Imported, Options, export_labelled, import};
use p3_air::{
    Air, AirLayout, BaseAir, ConstraintReport, DebugConstraintBuilder, SymbolicAirBuilder,
    check_all_constraints, get_constraint_layout, get_max_constraint_degree,
    get_symbolic_constraints,
};
use p3_field::{Algebra, BasedVectorSpace};
use p3_matrix::dense::RowMajorMatrix;
use serde_json::Value;
use std::array;

/// Nothing, or in what two AIRs differ.
type Compared = Result<(), &'static str>;

fn same<T: PartialEq>(what: &'static str, one: &T, other: &T) -> Compared {
    if one == other { Ok(()) } else { Err(what) }
}

/// Compares an AIR with the one that is read from its object, which was exported with these options.
pub fn compare<F: Extended, A: Tried<F>>(
    air: &A,
    trace: &RowMajorMatrix<F>,
    public_values: &[F],
    options: &Options,
    object: &Value,
) -> Compared {
    let back: Imported<F> = import(&object.to_string()).map_err(|_| "the import fails")?;
    same("trace", &back.trace, trace)?;
    same(
        "public values",
        &back.public_values,
        &public_values.to_vec(),
    )?;
    let labelled = back.air.clone().with_labels();
    let again = export_labelled::<F, _>(&labelled, trace, public_values, options);
    same("second export", &again.as_ref(), &Ok(object))?;
    compare_recordings::<F, _>(air, &back.air)?;
    for cap in [options.cap, None] {
        let failures = failures(&check_all_constraints(air, trace, public_values, cap));
        let check = check_all_constraints(&labelled, trace, public_values, cap);
        same("check", &failures, &self::failures(&check))?;
        let check = check_all_constraints(&back.air, trace, public_values, cap);
        same(
            "check without labels",
            &unlabelled(&failures),
            &unlabelled(&self::failures(&check)),
        )?;
    }
    compare_cells(air, &back.air, trace, public_values)?;
    compare_folds(air, &back.air, public_values)
}

/// A check's counts, and row, number and label of each failure.
type Checked = (usize, usize, Vec<(usize, usize, Option<String>)>);

fn failures(report: &ConstraintReport) -> Checked {
    let failures = report.failures.iter();
    let failures = failures.map(|it| (it.row, it.constraint, it.label.clone()));
    (
        report.total_rows,
        report.total_constraints_per_row,
        failures.collect(),
    )
}

/// The same, without the labels of constraints.
fn unlabelled((rows, constraints, failures): &Checked) -> Checked {
    let failures = failures.iter().map(|(row, constraint, label)| {
        let label = label.clone().filter(|_| constraint >= constraints);
        (*row, *constraint, label)
    });
    (*rows, *constraints, failures.collect())
}

/// The AIRs have the same shape, and p3-air records the same places and degrees.
fn compare_recordings<F, A>(air: &A, flat: &FlatAir<F>) -> Compared
where
    F: AuditedField,
    A: Air<SymbolicAirBuilder<F>>,
{
    let layout = AirLayout::from_air::<F>(air);
    let text = |layout: &AirLayout| format!("{layout:?}");
    same(
        "layout",
        &text(&layout),
        &text(&AirLayout::from_air::<F>(flat)),
    )?;
    let count = get_symbolic_constraints::<F, A>(air, layout).len();
    same(
        "hint of their number",
        &flat.num_constraints(),
        &Some(count),
    )?;
    for weight in 0..3 {
        same("degrees", &degrees(air, weight), &degrees(flat, weight))?;
    }
    for height in [0, 1, 2, 3, 8, 1024] {
        let degree = get_max_constraint_degree::<F, _>(air, layout, height);
        let other = get_max_constraint_degree::<F, _>(flat, layout, height);
        same("greatest degree", &degree, &other)?;
    }
    let places = get_constraint_layout::<F, F, _>(air, layout);
    let other = get_constraint_layout::<F, F, _>(flat, layout);
    same(
        "places over the field",
        &places.base_indices,
        &other.base_indices,
    )?;
    same(
        "places over the extension",
        &places.ext_indices,
        &other.ext_indices,
    )
}

/// The degree of each constraint, where the transition selector has this weight.
fn degrees<F, A>(air: &A, weight: usize) -> Vec<usize>
where
    F: AuditedField,
    A: Air<SymbolicAirBuilder<F>>,
{
    let constraints = get_symbolic_constraints::<F, A>(air, AirLayout::from_air::<F>(air));
    let degrees = constraints
        .iter()
        .map(|it| it.degree_multiple_with_transition(weight));
    degrees.collect()
}

/// With constraints in place of boundary values the AIR has none, and a check finds the same failures.
fn compare_cells<F, A>(
    air: &A,
    flat: &FlatAir<F>,
    trace: &RowMajorMatrix<F>,
    public_values: &[F],
) -> Compared
where
    F: AuditedField,
    A: for<'a> Air<DebugConstraintBuilder<'a, F>>,
{
    let flat = flat.clone().with_labels().with_cells_as_constraints();
    same("boundary values", &flat.public_boundary_io().len(), &0)?;
    let sorted = |report: &ConstraintReport| {
        let mut list = failures(report).2;
        list.sort();
        list
    };
    let failures = sorted(&check_all_constraints(air, trace, public_values, None));
    let other = sorted(&check_all_constraints(&flat, trace, public_values, None));
    same("check of boundary values", &failures, &other)
}

/// At points by chance both AIRs are folded to the same value: over the field, over packed elements, over an extension.
fn compare_folds<F: Extended, A: Tried<F>>(
    air: &A,
    flat: &FlatAir<F>,
    public_values: &[F],
) -> Compared {
    let mut state = 20_261_128;
    let mut element = || chance::<F>(&mut state);
    compare_folded("fold", air, flat, public_values, &mut element)?;
    let mut packed = || Packed(array::from_fn(|_| element()));
    compare_folded("packed fold", air, flat, public_values, &mut packed)?;
    let mut extended = || F::Extension::from_basis_coefficients_fn(|_| element());
    compare_folded("extended fold", air, flat, public_values, &mut extended)
}

/// A pseudorandom element.
fn chance<F: AuditedField>(state: &mut u64) -> F {
    *state = state
        .wrapping_mul(6_364_136_223_846_793_005)
        .wrapping_add(1_442_695_040_888_963_407);
    elements(&[(*state >> 1) % modulus::<F>()])[0]
}

fn compare_folded<F, E, A>(
    what: &'static str,
    air: &A,
    flat: &FlatAir<F>,
    public_values: &[F],
    element: &mut impl FnMut() -> E,
) -> Compared
where
    F: AuditedField,
    E: Algebra<F> + Algebra<E> + Copy + Send + Sync + PartialEq,
    A: for<'a> Air<Folder<'a, F, E>>,
{
    for _ in 0..4 {
        let mut list = |count: usize| -> Vec<E> { (0..count).map(|_| element()).collect() };
        let point = Point {
            main: array::from_fn(|_| list(air.width())),
            preprocessed: array::from_fn(|_| list(air.preprocessed_width())),
            periodic: list(air.num_periodic_columns()),
            selectors: array::from_fn(|_| list(1)[0]),
        };
        let alpha = element();
        let mut folder = Folder::new(&point, public_values, alpha);
        air.eval(&mut folder);
        let mut other = Folder::new(&point, public_values, alpha);
        flat.eval(&mut other);
        same(
            what,
            &(folder.count, folder.folded),
            &(other.count, other.folded),
        )?;
    }
    Ok(())
}
