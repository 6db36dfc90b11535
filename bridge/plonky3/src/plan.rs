//! The order in which the constraints of an object are computed.

use p3_air::symbolic::BaseEntry;
use p3_air::{BoundaryEnd, BoundaryPublic};

/// One value that constraints are made of.
#[derive(Clone, Copy, Debug, PartialEq, Eq, Hash)]
pub(crate) enum Leaf<F> {
    IsFirstRow,
    IsLastRow,
    IsTransition,
    Constant(F),
    Variable(BaseEntry, usize),
}

/// A leaf, or an operation on the values of earlier steps, by their places.
#[derive(Clone, Copy, Debug, PartialEq, Eq, Hash)]
pub(crate) enum Step<F> {
    Leaf(Leaf<F>),
    Neg(usize),
    Add(usize, usize),
    Sub(usize, usize),
    Mul(usize, usize),
}

impl<F> Step<F> {
    fn operands(&self) -> [Option<usize>; 2] {
        match *self {
            Self::Leaf(_) => [None, None],
            Self::Neg(x) => [Some(x), None],
            Self::Add(x, y) | Self::Sub(x, y) | Self::Mul(x, y) => [Some(x), Some(y)],
        }
    }

    /// The same step, with its operands at other places.
    fn moved(self, place: impl Fn(usize) -> usize) -> Self {
        match self {
            Self::Leaf(leaf) => Self::Leaf(leaf),
            Self::Neg(x) => Self::Neg(place(x)),
            Self::Add(x, y) => Self::Add(place(x), place(y)),
            Self::Sub(x, y) => Self::Sub(place(x), place(y)),
            Self::Mul(x, y) => Self::Mul(place(x), place(y)),
        }
    }
}

/// The steps that compute all constraints, each step once, even if several constraints use it.
#[derive(Clone, Debug)]
pub(crate) struct Plan<F> {
    pub(crate) steps: Vec<Step<F>>,
    /// For each constraint the place of its last step.
    pub(crate) roots: Vec<usize>,
}

impl<F> Plan<F> {
    /// The same plan without the steps that no constraint uses: a list of nodes may have some.
    pub(crate) fn without_unused(self) -> Self {
        let used = used(&self.steps, &self.roots);
        let mut places = Vec::with_capacity(used.len());
        let mut steps = Vec::new();
        for (step, is_used) in self.steps.into_iter().zip(used) {
            places.push(steps.len());
            if is_used {
                steps.push(step.moved(|operand| places[operand]));
            }
        }
        let roots = self.roots.iter().map(|&root| places[root]).collect();
        Self { steps, roots }
    }

    /// The columns that the steps read of this entry, in order.
    pub(crate) fn columns_of(&self, entry: BaseEntry) -> Vec<usize> {
        let column = |step: &Step<F>| match *step {
            Step::Leaf(Leaf::Variable(read, column)) if read == entry => Some(column),
            _ => None,
        };
        let mut columns: Vec<usize> = self.steps.iter().filter_map(column).collect();
        columns.sort_unstable();
        columns.dedup();
        columns
    }

    /// Adds the constraint that a boundary value holds, behind the others.
    pub(crate) fn add_cell(&mut self, cell: &BoundaryPublic) {
        let selector = match cell.end {
            BoundaryEnd::First => Leaf::IsFirstRow,
            BoundaryEnd::Last => Leaf::IsLastRow,
        };
        let at = self.steps.len();
        self.steps.extend([
            Step::Leaf(selector),
            Step::Leaf(Leaf::Variable(BaseEntry::Main { offset: 0 }, cell.column)),
            Step::Leaf(Leaf::Variable(BaseEntry::Public, cell.public_value)),
            Step::Sub(at + 1, at + 2),
            Step::Mul(at, at + 3),
        ]);
        self.roots.push(at + 4);
    }
}

/// Which steps these roots use.
pub(crate) fn used<F>(steps: &[Step<F>], roots: &[usize]) -> Vec<bool> {
    let mut used = vec![false; steps.len()];
    for &root in roots {
        used[root] = true;
    }
    for (at, step) in steps.iter().enumerate().rev() {
        if used[at] {
            for operand in step.operands().into_iter().flatten() {
                used[operand] = true;
            }
        }
    }
    used
}
