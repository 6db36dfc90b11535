//! Writing an AIR, as p3-air records it, and its trace as an object.

use crate::expressions::list_of;
use crate::numbers::numbers;
use crate::{AuditedField, ExportError, LabellingBuilder};
use p3_air::symbolic::{
    AirLayout, SymbolicAirBuilder, SymbolicExpression, get_all_symbolic_constraints,
};
use p3_air::{Air, BaseAir, BoundaryEnd, BoundaryPublic};
use p3_baby_bear::BabyBear;
use p3_field::{ExtensionField, PrimeCharacteristicRing};
use p3_matrix::Matrix;
use p3_matrix::dense::RowMajorMatrix;
use serde_json::{Map, Value, json};

/// How an AIR is recorded and its trace audited.
#[derive(Clone, Debug, Default)]
pub struct Options {
    /// The layout that the AIR is recorded by. `None` is the AIR's own layout, which has no permutation columns, no
    /// challenges and no permutation values.
    pub layout: Option<AirLayout>,
    /// Leaves out constraints over the extension, and numbers the others without them.
    pub leave_out_extension: bool,
    /// A further row is checked only while there are fewer failures than this.
    pub cap: Option<usize>,
    /// The domain's weight of the transition selector; 0 if it is linear.
    pub transition_weight: usize,
}

/// Writes the object for an AIR without constraints over an extension: its constraints, recorded by its own layout,
/// its preprocessed trace, periodic columns and boundary values, and this trace with these public values.
///
/// The trace and the preprocessed trace are written as they are: if they don't fit the AIR or each other, `air_check`
/// says so. Panics where p3-air does: where the AIR reads an entry that its layout lacks.
///
/// # Errors
///
/// `BooleanTrace` if the AIR assumes a trace of bits. `PreprocessedWidth` if its `preprocessed_width()` isn't the width
/// of its preprocessed trace, or 0 without one: p3-air doesn't compare them, and by another width it records other
/// constraints than those of the preprocessed trace. `ExtensionConstraints` if the AIR asserts over an extension.
pub fn export<F, A>(
    air: &A,
    trace: &RowMajorMatrix<F>,
    public_values: &[F],
) -> Result<Value, ExportError>
where
    F: AuditedField,
    A: Air<SymbolicAirBuilder<F>>,
{
    let options = Options::default();
    let recorded = recorded::<F, F, A>(air, &options)?;
    Ok(object_of(air, trace, public_values, &recorded, &options))
}

/// Exports as `export` does, with options, an AIR that is recorded with extension `EF` (the field itself if it has
/// none). The AIR's field is the prime field below `EF`.
///
/// # Errors
///
/// As `export`, with these differences: if the options have a layout, the width is compared with the layout's; and
/// there is no `ExtensionConstraints` if the options leave those constraints out.
pub fn export_with<EF, A>(
    air: &A,
    trace: &RowMajorMatrix<EF::PrimeSubfield>,
    public_values: &[EF::PrimeSubfield],
    options: &Options,
) -> Result<Value, ExportError>
where
    EF: PrimeCharacteristicRing + ExtensionField<<EF as PrimeCharacteristicRing>::PrimeSubfield>,
    EF::PrimeSubfield: AuditedField,
    A: Air<SymbolicAirBuilder<EF::PrimeSubfield, EF>>,
{
    let recorded = recorded::<EF::PrimeSubfield, EF, A>(air, options)?;
    Ok(object_of(air, trace, public_values, &recorded, options))
}

/// Exports as `export_with` does, with the labels of the constraints: the AIR asserts on a [`LabellingBuilder`], which
/// is a `NamedAirBuilder`. `air_check` then writes a failing constraint's label beside its number.
///
/// # Errors
///
/// As `export_with`.
pub fn export_labelled<EF, A>(
    air: &A,
    trace: &RowMajorMatrix<EF::PrimeSubfield>,
    public_values: &[EF::PrimeSubfield],
    options: &Options,
) -> Result<Value, ExportError>
where
    EF: PrimeCharacteristicRing + ExtensionField<<EF as PrimeCharacteristicRing>::PrimeSubfield>,
    EF::PrimeSubfield: AuditedField,
    A: Air<LabellingBuilder<EF::PrimeSubfield, EF>>,
{
    let recorded = recorded_with_labels::<EF::PrimeSubfield, EF, A>(air, options)?;
    Ok(object_of(air, trace, public_values, &recorded, options))
}

/// The recording of an AIR: its constraints over the base field, and their labels, or none.
struct Recorded<F> {
    constraints: Vec<SymbolicExpression<F>>,
    labels: Vec<String>,
}

/// The object for an AIR over `F` with this recording.
fn object_of<F, A>(
    air: &A,
    trace: &RowMajorMatrix<F>,
    public_values: &[F],
    recorded: &Recorded<F>,
    options: &Options,
) -> Value
where
    F: AuditedField,
    A: BaseAir<F>,
{
    let table = air.preprocessed_trace();
    let mut object = Map::new();
    insert_field::<F>(&mut object);
    insert_matrix(&mut object, "main_width", "main", trace);
    if let Some(table) = &table {
        insert_matrix(&mut object, "preprocessed_width", "preprocessed", table);
    }
    insert(&mut object, "public_values", numbers(public_values));
    insert(
        &mut object,
        "constraints",
        recorded.constraints.iter().map(list_of).collect(),
    );
    insert(&mut object, "periodic", periodic_columns(air));
    insert(
        &mut object,
        "boundary",
        air.public_boundary_io().iter().map(cell).collect(),
    );
    insert_options(&mut object, options);
    insert_labels(&mut object, &recorded.labels);
    Value::Object(object)
}

/// The recorded constraints over the base field of an AIR.
fn recorded<F, EF, A>(air: &A, options: &Options) -> Result<Recorded<F>, ExportError>
where
    F: AuditedField,
    EF: ExtensionField<F>,
    A: Air<SymbolicAirBuilder<F, EF>>,
{
    let layout = layout_of(air, options)?;
    let (constraints, extension) = get_all_symbolic_constraints::<F, EF, A>(air, layout);
    refuse_extension(extension.len(), options)?;
    Ok(Recorded {
        constraints,
        labels: Vec::new(),
    })
}

/// The recorded constraints over the base field of an AIR, with their labels.
fn recorded_with_labels<F, EF, A>(air: &A, options: &Options) -> Result<Recorded<F>, ExportError>
where
    F: AuditedField,
    EF: ExtensionField<F>,
    A: Air<LabellingBuilder<F, EF>>,
{
    let layout = layout_of(air, options)?;
    layout.validate_against_air::<F>(air);
    let mut builder = LabellingBuilder::new(layout);
    air.eval(&mut builder);
    refuse_extension(builder.extension_constraints().len(), options)?;
    let (constraints, labels) = builder.into_base();
    Ok(Recorded {
        constraints,
        labels,
    })
}

/// The layout that an AIR is recorded by, if its constraints say all and the layout's preprocessed width is that of its
/// preprocessed trace.
fn layout_of<F, A>(air: &A, options: &Options) -> Result<AirLayout, ExportError>
where
    F: AuditedField,
    A: BaseAir<F>,
{
    if air.assumes_boolean_trace() {
        return Err(ExportError::BooleanTrace);
    }
    let layout = options
        .layout
        .unwrap_or_else(|| AirLayout::from_air::<F>(air));
    compare_widths(layout.preprocessed_width, air.preprocessed_trace().as_ref())?;
    Ok(layout)
}

/// Refuses constraints over the extension, unless the options leave them out.
fn refuse_extension(count: usize, options: &Options) -> Result<(), ExportError> {
    if count > 0 && !options.leave_out_extension {
        return Err(ExportError::ExtensionConstraints(count));
    }
    Ok(())
}

/// Refuses another width than the preprocessed trace's. While it is recorded the AIR sees this number of columns, and
/// while it is checked those of the preprocessed trace. So an AIR that loops over the columns that it sees would have
/// other constraints in the object than on its rows, unnoticed.
fn compare_widths<F: AuditedField>(
    recorded: usize,
    table: Option<&RowMajorMatrix<F>>,
) -> Result<(), ExportError> {
    let table = table.map_or(0, |table| table.width());
    if recorded != table {
        return Err(ExportError::PreprocessedWidth { recorded, table });
    }
    Ok(())
}

/// The values of each periodic column.
fn periodic_columns<F: AuditedField, A: BaseAir<F>>(air: &A) -> Value {
    air.periodic_columns()
        .iter()
        .map(|column| numbers(column))
        .collect()
}

/// A boundary value: a cell of the trace that must hold a public value.
fn cell(cell: &BoundaryPublic) -> Value {
    let end = match cell.end {
        BoundaryEnd::First => "First",
        BoundaryEnd::Last => "Last",
    };
    json!({"column": cell.column, "end": end, "public_value": cell.public_value})
}

/// Adds the field's name, unless it is the default.
fn insert_field<F: AuditedField>(object: &mut Map<String, Value>) {
    if F::NAME != <BabyBear as AuditedField>::NAME {
        insert(object, "field", json!(F::NAME));
    }
}

/// Adds a matrix, row after row, and its width.
fn insert_matrix<F: AuditedField>(
    object: &mut Map<String, Value>,
    width: &str,
    values: &str,
    matrix: &RowMajorMatrix<F>,
) {
    insert(object, width, json!(matrix.width()));
    insert(object, values, numbers(&matrix.values));
}

/// Adds the cap and the weight, unless they are the defaults.
fn insert_options(object: &mut Map<String, Value>, options: &Options) {
    if let Some(cap) = options.cap {
        insert(object, "cap", json!(cap));
    }
    if options.transition_weight > 0 {
        insert(
            object,
            "transition_weight",
            json!(options.transition_weight),
        );
    }
}

/// Adds the labels, one for each constraint, if there are any.
fn insert_labels(object: &mut Map<String, Value>, labels: &[String]) {
    if labels.iter().any(|label| !label.is_empty()) {
        insert(object, "labels", json!(labels));
    }
}

fn insert(object: &mut Map<String, Value>, name: &str, value: Value) {
    object.insert(name.to_owned(), value);
}
