//! Errors of audits.

use crate::ExportError;
use std::error::Error;
use std::ffi::OsString;
use std::path::Path;
use std::{fmt, fs, io};

/// Why there is no report. (Its debug text is the text, which a test prints if it returns the error.)
pub enum AuditError {
    /// The AIR can't be exported.
    Export(ExportError),
    /// The variable `AIR_CHECK` isn't set, and `PATH` has no program `air_check`.
    NoProgram,
    /// The program can't be run.
    Run {
        /// The program.
        program: OsString,
        /// What is wrong.
        error: io::Error,
    },
    /// The program refuses the object for this reason, such as `PreprocessedHeight`.
    Refused(String),
    /// The program ended otherwise than an audit does.
    Answer {
        /// The program.
        program: OsString,
        /// Its status, unless a signal ended it.
        status: Option<i32>,
        /// What it printed.
        answer: String,
    },
}

impl From<ExportError> for AuditError {
    fn from(error: ExportError) -> Self {
        Self::Export(error)
    }
}

impl fmt::Display for AuditError {
    fn fmt(&self, f: &mut fmt::Formatter<'_>) -> fmt::Result {
        match self {
            Self::Export(error) => error.fmt(f),
            Self::NoProgram => no_program(f),
            Self::Run { program, error } => write!(f, "{}: {error}", program.display()),
            Self::Refused(reason) => write!(f, "air_check refuses the object: {reason}"),
            Self::Answer {
                program,
                status,
                answer,
            } => {
                let program = program.display();
                write!(
                    f,
                    "{program} ended with status {status:?}, having printed {answer:?}"
                )
            }
        }
    }
}

/// Says how to build the program.
fn no_program(f: &mut fmt::Formatter<'_>) -> fmt::Result {
    let top = Path::new(concat!(env!("CARGO_MANIFEST_DIR"), "/../.."));
    let top = fs::canonicalize(top).unwrap_or_else(|_| top.to_owned());
    let top = top.display();
    write!(
        f,
        "there is no program air_check on PATH. Build it proved by {top}/build, and set \
         AIR_CHECK={top}/crates/air_check/out/air_check; or set AIR_CHECK={top}/air_check, which runs it \
         unproved until then, and builds it at the first call"
    )
}

impl fmt::Debug for AuditError {
    fn fmt(&self, f: &mut fmt::Formatter<'_>) -> fmt::Result {
        fmt::Display::fmt(self, f)
    }
}

impl Error for AuditError {
    fn source(&self) -> Option<&(dyn Error + 'static)> {
        match self {
            Self::Export(error) => Some(error),
            Self::Run { error, .. } => Some(error),
            _ => None,
        }
    }
}
