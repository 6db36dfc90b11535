//! Reading an object as an AIR.

use crate::flat_air::{FlatAir, Parts};
use crate::planner::{Widths, plan_of, read};
use crate::{AuditedField, ImportError};
use p3_air::{BoundaryPublic, boundary};
use p3_baby_bear::BabyBear;
use p3_matrix::dense::RowMajorMatrix;
use serde::Deserialize;
use serde_json::value::RawValue;
use std::collections::HashMap;

/// What an object spells: an AIR, and a trace of it with public values.
#[derive(Clone, Debug)]
pub struct Imported<F> {
    /// The AIR.
    pub air: FlatAir<F>,
    /// The trace. It may have no rows, and nothing compares it with the AIR: checks do.
    pub trace: RowMajorMatrix<F>,
    /// The public values.
    pub public_values: Vec<F>,
}

/// Reads the text of an object over `F`. It accepts every object that `air_check flat` audits. The members `cap` and
/// `transition_weight` are ignored: they are no part of an AIR.
///
/// It isn't checked here, but by `air_check` and by p3-air's own check, that the preprocessed trace is as high as the
/// trace and that periods divide the number of rows.
///
/// # Errors
///
/// In this order: `Json`, `Field`, then the first error of the trace, the preprocessed trace, the public values, the
/// periodic columns, the constraints, the boundary values, the labels.
pub fn import<F: AuditedField>(text: &str) -> Result<Imported<F>, ImportError> {
    let members = Members(serde_json::from_str(text).map_err(ImportError::Json)?);
    members.compare_field::<F>()?;
    let trace: RowMajorMatrix<F> = members.matrix("main_width", "main")?;
    let preprocessed: Option<RowMajorMatrix<F>> = members.preprocessed()?;
    let public_values = members.elements("public_values")?;
    let periodic = members.periodic()?;
    let widths = Widths {
        main: trace.width,
        preprocessed: preprocessed.as_ref().map_or(0, |matrix| matrix.width),
        periodic: periodic.len(),
        public: public_values.len(),
    };
    let plan = plan_of(
        &members.needed::<Vec<Vec<&RawValue>>>("constraints")?,
        &widths,
    )?;
    let air = FlatAir::new(Parts {
        width: widths.main,
        num_public_values: widths.public,
        preprocessed,
        periodic,
        cells: members.cells(&widths)?,
        labels: members.labels(plan.roots.len())?,
        plan,
    });
    Ok(Imported {
        air,
        trace,
        public_values,
    })
}

/// The members of an object, as they are written. (Of a member that occurs twice the last one counts.)
struct Members<'a>(HashMap<String, &'a RawValue>);

impl<'a> Members<'a> {
    fn optional<T: Deserialize<'a>>(&self, name: &'static str) -> Result<Option<T>, ImportError> {
        let Some(member) = self.0.get(name) else {
            return Ok(None);
        };
        serde_json::from_str(member.get())
            .map(Some)
            .map_err(|error| ImportError::Form { name, error })
    }

    fn needed<T: Deserialize<'a>>(&self, name: &'static str) -> Result<T, ImportError> {
        self.optional(name)?.ok_or(ImportError::Missing(name))
    }

    /// Refuses an object over another field.
    fn compare_field<F: AuditedField>(&self) -> Result<(), ImportError> {
        let found: Option<String> = self.optional("field")?;
        let found = found.unwrap_or_else(|| <BabyBear as AuditedField>::NAME.to_owned());
        if found != F::NAME {
            let wanted = F::NAME;
            return Err(ImportError::Field { wanted, found });
        }
        Ok(())
    }

    fn elements<F: AuditedField>(&self, name: &'static str) -> Result<Vec<F>, ImportError> {
        elements(name, &self.needed::<Vec<u64>>(name)?)
    }

    fn matrix<F: AuditedField>(
        &self,
        width: &'static str,
        values: &'static str,
    ) -> Result<RowMajorMatrix<F>, ImportError> {
        let (columns, elements): (usize, Vec<F>) = (self.needed(width)?, self.elements(values)?);
        let rest = elements.len().checked_rem(columns);
        if rest.unwrap_or(elements.len()) != 0 {
            return Err(ImportError::Ragged(values));
        }
        Ok(RowMajorMatrix::new(elements, columns))
    }

    /// The preprocessed trace: both its members, or neither.
    fn preprocessed<F: AuditedField>(&self) -> Result<Option<RowMajorMatrix<F>>, ImportError> {
        let (width, values) = ("preprocessed_width", "preprocessed");
        if !self.0.contains_key(width) && !self.0.contains_key(values) {
            return Ok(None);
        }
        self.matrix(width, values).map(Some)
    }

    fn periodic<F: AuditedField>(&self) -> Result<Vec<Vec<F>>, ImportError> {
        let name = "periodic";
        let columns: Vec<Vec<u64>> = self.optional(name)?.unwrap_or_default();
        let column = |numbers: &Vec<u64>| {
            if !numbers.len().is_power_of_two() {
                return Err(ImportError::Period(numbers.len()));
            }
            elements(name, numbers)
        };
        columns.iter().map(column).collect()
    }

    /// The boundary values.
    fn cells(&self, widths: &Widths) -> Result<Vec<BoundaryPublic>, ImportError> {
        let name = "boundary";
        let parts: Vec<&RawValue> = self.optional(name)?.unwrap_or_default();
        let cells: Result<Vec<BoundaryPublic>, _> = parts.into_iter().map(read).collect();
        let cells = cells.map_err(|error| ImportError::Form { name, error })?;
        boundary::validate(&cells, widths.main, widths.public).map_err(ImportError::Cell)?;
        Ok(cells)
    }

    /// A label for each constraint; the object may have fewer.
    fn labels(&self, constraints: usize) -> Result<Vec<String>, ImportError> {
        let mut labels: Vec<String> = self.optional("labels")?.unwrap_or_default();
        if labels.len() > constraints {
            let labels = labels.len();
            return Err(ImportError::Labels {
                labels,
                constraints,
            });
        }
        labels.resize(constraints, String::new());
        Ok(labels)
    }
}

/// The elements that the numbers of a member stand for.
fn elements<F: AuditedField>(name: &'static str, numbers: &[u64]) -> Result<Vec<F>, ImportError> {
    let element = |&number| F::from_canonical(number).ok_or(ImportError::NotCanonical(name));
    numbers.iter().map(element).collect()
}
