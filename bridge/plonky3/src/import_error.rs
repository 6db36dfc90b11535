//! Errors of imports.

use p3_air::BoundaryIoError;
use p3_air::symbolic::BaseEntry;
use std::error::Error;
use std::fmt;

/// Why an object is not imported.
#[derive(Debug)]
pub enum ImportError {
    /// The text is no JSON object.
    Json(serde_json::Error),
    /// The object is over another field than the one that was asked for.
    Field {
        /// The field that was asked for.
        wanted: &'static str,
        /// The field of the object.
        found: String,
    },
    /// The member is missing.
    Missing(&'static str),
    /// The member has a wrong form.
    Form {
        /// The member's name.
        name: &'static str,
        /// What is wrong.
        error: serde_json::Error,
    },
    /// A number of this member is not below the modulus.
    NotCanonical(&'static str),
    /// The values of this member don't fill whole rows.
    Ragged(&'static str),
    /// A periodic column has this length, which isn't a power of two.
    Period(usize),
    /// The list of this constraint is empty.
    EmptyList {
        /// The constraint's index.
        constraint: usize,
    },
    /// A node of a constraint has a fault.
    Node {
        /// The constraint's index.
        constraint: usize,
        /// The node's place in the list.
        at: usize,
        /// What is wrong.
        fault: NodeFault,
    },
    /// A boundary value doesn't fit.
    Cell(BoundaryIoError),
    /// There are more labels than constraints.
    Labels {
        /// The number of labels.
        labels: usize,
        /// The number of constraints.
        constraints: usize,
    },
}

/// What is wrong with a node.
#[derive(Debug)]
pub enum NodeFault {
    /// It has a wrong form.
    Form(serde_json::Error),
    /// It is a constant that isn't below the modulus.
    NotCanonical,
    /// It is an entry that the AIR doesn't have, or of a row after the next one.
    MissingEntry {
        /// The kind of the entry.
        entry: BaseEntry,
        /// Its index.
        index: usize,
    },
    /// Its operand is not the place of an earlier node.
    Operand {
        /// The operand.
        operand: usize,
    },
    /// It states another degree than it has.
    WrongDegree {
        /// The degree that it states.
        stated: usize,
        /// Its degree.
        degree: usize,
    },
    /// Its degree exceeds `usize`.
    DegreeOverflow,
}

impl fmt::Display for ImportError {
    fn fmt(&self, f: &mut fmt::Formatter<'_>) -> fmt::Result {
        match self {
            Self::Json(error) => write!(f, "the text is no JSON object: {error}"),
            Self::Field { wanted, found } => {
                write!(f, "the object is over {found}, and is read over {wanted}")
            }
            Self::Missing(name) => write!(f, "the member `{name}` is missing"),
            Self::Form { name, error } => {
                write!(f, "the member `{name}` has a wrong form: {error}")
            }
            Self::NotCanonical(name) => write!(f, "a number of `{name}` is not below the modulus"),
            Self::Ragged(name) => write!(f, "the values of `{name}` don't fill whole rows"),
            Self::Period(length) => {
                write!(f, "a periodic column has length {length}, no power of two")
            }
            Self::EmptyList { constraint } => write!(f, "constraint {constraint} has no nodes"),
            Self::Node {
                constraint,
                at,
                fault,
            } => write!(f, "constraint {constraint}, node {at}: {fault}"),
            Self::Cell(error) => error.fmt(f),
            Self::Labels {
                labels,
                constraints,
            } => write!(f, "there are {labels} labels for {constraints} constraints"),
        }
    }
}

impl fmt::Display for NodeFault {
    fn fmt(&self, f: &mut fmt::Formatter<'_>) -> fmt::Result {
        match self {
            Self::Form(error) => write!(f, "wrong form: {error}"),
            Self::NotCanonical => write!(f, "the constant is not below the modulus"),
            Self::MissingEntry { entry, index } => {
                write!(f, "the AIR has no entry {entry:?} of index {index}")
            }
            Self::Operand { operand } => write!(f, "operand {operand} is no earlier node"),
            Self::WrongDegree { stated, degree } => {
                write!(
                    f,
                    "the stated degree is {stated}, and the degree is {degree}"
                )
            }
            Self::DegreeOverflow => write!(f, "the degree is too great"),
        }
    }
}

impl Error for ImportError {
    fn source(&self) -> Option<&(dyn Error + 'static)> {
        match self {
            Self::Json(error) | Self::Form { error, .. } => Some(error),
            Self::Node {
                fault: NodeFault::Form(error),
                ..
            } => Some(error),
            Self::Cell(error) => Some(error),
            _ => None,
        }
    }
}
