//! AIRs of p3-air and the program `air_check`: [`audit`] runs it on an AIR and a trace, [`export`] writes them as the
//! JSON object that it reads, and [`import`] reads such an object as an AIR. The AIR is over BabyBear or, by a feature,
//! over KoalaBear, Mersenne31 or Goldilocks.
//!
//! This crate is not proved: it is only tried on examples that an object has the AIR's constraints, and that an
//! imported AIR has the object's.
#![forbid(unsafe_code)]

mod audit;
mod audit_error;
mod export;
mod export_error;
mod expressions;
mod fields;
mod flat_air;
mod import;
mod import_error;
mod labels;
mod numbers;
mod plan;
mod planner;

pub use audit::{Failure, Report, audit, audit_with};
pub use audit_error::AuditError;
pub use export::{Options, export, export_labelled, export_with};
pub use export_error::ExportError;
pub use fields::AuditedField;
pub use flat_air::{FlatAir, LabelledAir};
pub use import::{Imported, import};
pub use import_error::{ImportError, NodeFault};
pub use labels::LabellingBuilder;
