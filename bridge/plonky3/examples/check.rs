//! Reads an object from standard input, and prints what p3-air's own degree and check say of its AIR and its trace, as
//! `air_check flat` does.

use air_check_bridge::{AuditedField, Imported, import};
use p3_air::{AirLayout, check_all_constraints, get_max_constraint_degree};
use p3_matrix::Matrix;
use std::error::Error;
use std::io;

fn check<F: AuditedField>(text: &str) -> Result<(), Box<dyn Error>> {
    let Imported {
        air,
        trace,
        public_values,
    } = import::<F>(text)?;
    let air = air.with_labels();
    let layout = AirLayout::from_air::<F>(&air);
    let degree = get_max_constraint_degree::<F, _>(&air, layout, trace.height());
    let report = check_all_constraints(&air, &trace, &public_values, None);
    println!("degree {degree}\nrows {}", report.total_rows);
    println!("constraints {}", report.total_constraints_per_row);
    for failure in &report.failures {
        println!("row {}: {failure}", failure.row);
    }
    Ok(())
}

fn main() -> Result<(), Box<dyn Error>> {
    let text = io::read_to_string(io::stdin())?;
    let object: serde_json::Value = serde_json::from_str(&text)?;
    match object["field"].as_str() {
        #[cfg(feature = "koala-bear")]
        Some("KoalaBear") => check::<p3_koala_bear::KoalaBear>(&text),
        #[cfg(feature = "mersenne-31")]
        Some("Mersenne31") => check::<p3_mersenne_31::Mersenne31>(&text),
        #[cfg(feature = "goldilocks")]
        Some("Goldilocks") => check::<p3_goldilocks::Goldilocks>(&text),
        _ => check::<p3_baby_bear::BabyBear>(&text),
    }
}
