//! Audits by the program. They need it: `AIR_CHECK=PATH/air_check cargo test`, or a program `air_check` on `PATH`.

use air_check_bridge::{AuditError, ExportError, Failure, Options, audit, audit_with};
use p3_air::{
    Air, AirBuilder, BaseAir, BoundaryEnd, BoundaryPublic, NamedAirBuilder, WindowAccess,
};
use p3_baby_bear::BabyBear;
use p3_field::PrimeCharacteristicRing;
use p3_matrix::dense::RowMajorMatrix;

/// Column 0 is a bit, column 1 counts the ones above, and its last number is public.
struct Counter;

const LAST: BoundaryPublic = BoundaryPublic::new(1, BoundaryEnd::Last, 0);

impl BaseAir<BabyBear> for Counter {
    fn width(&self) -> usize {
        2
    }
    fn num_public_values(&self) -> usize {
        1
    }
    fn public_boundary_io(&self) -> &[BoundaryPublic] {
        &[LAST]
    }
}

impl<AB: NamedAirBuilder<F = BabyBear>> Air<AB> for Counter {
    fn eval(&self, builder: &mut AB) {
        let main = builder.main();
        let (bit, count) = (main.current(0).unwrap(), main.current(1).unwrap());
        builder.assert_bool_named(bit, "bit");
        builder.when_first_row().assert_zero(count);
        builder
            .when_transition()
            .assert_eq_named(main.next(1).unwrap(), count + bit, "count");
    }
}

fn trace(numbers: &[u32]) -> RowMajorMatrix<BabyBear> {
    RowMajorMatrix::new(numbers.iter().copied().map(BabyBear::new).collect(), 2)
}

#[test]
fn my_air_holds() -> Result<(), AuditError> {
    let report = audit(
        &Counter,
        &trace(&[1, 0, 0, 1, 1, 1, 0, 2]),
        &[BabyBear::TWO],
    )?;
    assert!(report.failures.is_empty(), "{report}");
    assert_eq!((report.degree, report.rows, report.constraints), (2, 4, 3));
    assert_eq!(
        report.to_string(),
        "degree 2\nrows 4\nconstraints 3\nfailures 0"
    );
    Ok(())
}

fn failure(row: usize, index: usize, label: Option<&str>) -> Failure {
    let label = label.map(str::to_owned);
    Failure::Constraint { row, index, label }
}

#[test]
fn failures_are_values_and_explained() -> Result<(), AuditError> {
    let report = audit(&Counter, &trace(&[1, 5, 7, 6, 0, 0]), &[BabyBear::ONE])?;
    let wanted = [
        failure(0, 1, None),
        failure(1, 0, Some("bit")),
        failure(1, 2, Some("count")),
        Failure::BoundaryValue { row: 2, cell: LAST },
    ];
    assert_eq!(report.failures, wanted);
    for part in ["row 1: #0 \"bit\"\n", "main[0] = 7\n"] {
        assert!(report.explained.contains(part), "{report}");
    }
    Ok(())
}

/// All failures are listed, and those of the first rows are explained.
#[test]
fn the_first_failures_are_explained() -> Result<(), AuditError> {
    let report = audit(&Counter, &trace(&[2; 60]), &[BabyBear::TWO])?;
    assert_eq!(report.failures.len(), 1 + 30 + 29);
    let explained = report
        .explained
        .lines()
        .filter(|line| line.starts_with("row "));
    assert_eq!(explained.count(), 11);
    assert!(report.to_string().ends_with("\nfailures 60"));
    Ok(())
}

#[test]
fn options_count() -> Result<(), AuditError> {
    let mut options = Options {
        cap: Some(1),
        transition_weight: 3,
        ..Options::default()
    };
    let mut audit = |cap| {
        options.cap = cap;
        audit_with::<BabyBear, _>(&Counter, &trace(&[2; 8]), &[BabyBear::TWO], &options)
    };
    let report = audit(Some(1))?;
    assert_eq!((report.degree, report.failures.len()), (4, 3));
    let explained = report
        .explained
        .lines()
        .filter(|line| line.starts_with("row "));
    assert_eq!(explained.count(), 3);
    let report = audit(Some(0))?;
    assert_eq!((report.rows, report.failures.len()), (4, 0));
    Ok(())
}

#[test]
fn refusals_are_errors() {
    let error = audit(&Counter, &trace(&[]), &[BabyBear::TWO]).unwrap_err();
    assert!(matches!(&error, AuditError::Refused(reason) if reason == "EmptyTrace"));
    assert_eq!(
        format!("{error:?}"),
        "air_check refuses the object: EmptyTrace"
    );
}

/// An AIR that relies on bits, which its constraints don't enforce.
struct OfBits;

impl BaseAir<BabyBear> for OfBits {
    fn width(&self) -> usize {
        2
    }
    fn assumes_boolean_trace(&self) -> bool {
        true
    }
}

impl<AB: AirBuilder<F = BabyBear>> Air<AB> for OfBits {
    fn eval(&self, _: &mut AB) {}
}

#[test]
fn an_air_that_assumes_bits_is_not_audited() {
    let error = audit(&OfBits, &trace(&[2, 2]), &[]).unwrap_err();
    assert!(matches!(
        error,
        AuditError::Export(ExportError::BooleanTrace)
    ));
}
