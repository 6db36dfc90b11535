//! Labels of recorded constraints.

use p3_air::symbolic::{
    AirLayout, SymbolicAirBuilder, SymbolicExpression, SymbolicExpressionExt, SymbolicVariable,
    SymbolicVariableExt,
};
use p3_air::{
    AirBuilder, ExtensionBuilder, Name, NamedAirBuilder, NamedExtensionBuilder,
    PermutationAirBuilder,
};
use p3_field::{Algebra, ExtensionField, Field};
use p3_matrix::dense::RowMajorMatrix;

/// Records an AIR as p3-air's `SymbolicAirBuilder` does, and keeps the label of each constraint over the base field.
#[derive(Debug)]
pub struct LabellingBuilder<F: Field, EF: ExtensionField<F> = F> {
    recording: SymbolicAirBuilder<F, EF>,
    /// The labels of the constraints over the base field, in order; empty where there is none.
    labels: Vec<String>,
}

impl<F: Field, EF: ExtensionField<F>> LabellingBuilder<F, EF> {
    /// A builder that has recorded nothing yet.
    pub fn new(layout: AirLayout) -> Self {
        Self {
            recording: SymbolicAirBuilder::new(layout),
            labels: Vec::new(),
        }
    }

    /// The recorded constraints over the extension.
    pub fn extension_constraints(&self) -> Vec<SymbolicExpressionExt<F, EF>> {
        self.recording.extension_constraints()
    }

    /// The recorded constraints over the base field, and their labels.
    pub fn into_base(self) -> (Vec<SymbolicExpression<F>>, Vec<String>) {
        (self.recording.base_constraints(), self.labels)
    }
}

impl<F: Field, EF: ExtensionField<F>> AirBuilder for LabellingBuilder<F, EF> {
    type F = F;
    type Expr = SymbolicExpression<F>;
    type Var = SymbolicVariable<F>;
    type PreprocessedWindow = RowMajorMatrix<SymbolicVariable<F>>;
    type MainWindow = RowMajorMatrix<SymbolicVariable<F>>;
    type PublicVar = SymbolicVariable<F>;
    type PeriodicVar = SymbolicVariable<F>;

    fn main(&self) -> Self::MainWindow {
        self.recording.main()
    }

    fn preprocessed(&self) -> &Self::PreprocessedWindow {
        self.recording.preprocessed()
    }

    fn is_first_row(&self) -> Self::Expr {
        self.recording.is_first_row()
    }

    fn is_last_row(&self) -> Self::Expr {
        self.recording.is_last_row()
    }

    fn is_transition(&self) -> Self::Expr {
        self.recording.is_transition()
    }

    fn assert_zero<I: Into<Self::Expr>>(&mut self, x: I) {
        self.assert_zero_named(x, "");
    }

    fn public_values(&self) -> &[Self::PublicVar] {
        self.recording.public_values()
    }

    fn periodic_values(&self) -> &[Self::PeriodicVar] {
        self.recording.periodic_values()
    }
}

impl<F: Field, EF: ExtensionField<F>> NamedAirBuilder for LabellingBuilder<F, EF> {
    fn assert_zero_named<I: Into<Self::Expr>, N: Name>(&mut self, x: I, name: N) {
        self.labels.push(name.evaluate().to_string());
        self.recording.assert_zero(x);
    }
}

impl<F: Field, EF: ExtensionField<F>> ExtensionBuilder for LabellingBuilder<F, EF>
where
    SymbolicExpressionExt<F, EF>: Algebra<EF>,
{
    type EF = EF;
    type ExprEF = SymbolicExpressionExt<F, EF>;
    type VarEF = SymbolicVariableExt<F, EF>;

    fn assert_zero_ext<I: Into<Self::ExprEF>>(&mut self, x: I) {
        self.recording.assert_zero_ext(x);
    }
}

impl<F: Field, EF: ExtensionField<F>> NamedExtensionBuilder for LabellingBuilder<F, EF>
where
    SymbolicExpressionExt<F, EF>: Algebra<EF>,
{
    fn assert_zero_ext_named<I: Into<Self::ExprEF>, N: Name>(&mut self, x: I, _name: N) {
        self.recording.assert_zero_ext(x);
    }
}

impl<F: Field, EF: ExtensionField<F>> PermutationAirBuilder for LabellingBuilder<F, EF>
where
    SymbolicExpressionExt<F, EF>: Algebra<EF>,
{
    type MP = RowMajorMatrix<SymbolicVariableExt<F, EF>>;
    type RandomVar = SymbolicVariableExt<F, EF>;
    type PermutationVar = SymbolicVariableExt<F, EF>;

    fn permutation(&self) -> Self::MP {
        self.recording.permutation()
    }

    fn permutation_randomness(&self) -> &[Self::RandomVar] {
        self.recording.permutation_randomness()
    }

    fn permutation_values(&self) -> &[Self::PermutationVar] {
        self.recording.permutation_values()
    }
}
