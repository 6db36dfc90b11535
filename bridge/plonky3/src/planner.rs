//! Plans from lists of nodes.

use crate::plan::{Leaf, Plan, Step, used};
use crate::{AuditedField, ImportError, NodeFault};
use p3_air::symbolic::BaseEntry;
use serde::Deserialize;
use serde::de::DeserializeOwned;
use serde_json::value::RawValue;
use std::collections::HashMap;

/// A node as it is written.
#[derive(Deserialize)]
enum Node {
    Leaf(NodeLeaf),
    Neg { x: usize, degree_multiple: usize },
    Add(Operands),
    Sub(Operands),
    Mul(Operands),
}

#[derive(Deserialize)]
enum NodeLeaf {
    IsFirstRow,
    IsLastRow,
    IsTransition,
    Constant(u64),
    Variable { entry: BaseEntry, index: usize },
}

#[derive(Deserialize)]
struct Operands {
    x: usize,
    y: usize,
    degree_multiple: usize,
}

/// Reads a small part of an object. (By way of a JSON value: of a member that occurs twice the last one counts.)
pub(crate) fn read<T: DeserializeOwned>(part: &RawValue) -> Result<T, serde_json::Error> {
    serde_json::from_value(serde_json::from_str(part.get())?)
}

/// The number of entries of each kind.
pub(crate) struct Widths {
    pub(crate) main: usize,
    pub(crate) preprocessed: usize,
    pub(crate) periodic: usize,
    pub(crate) public: usize,
}

impl Widths {
    fn has(&self, entry: BaseEntry, index: usize) -> bool {
        let (offset, width) = match entry {
            BaseEntry::Main { offset } => (offset, self.main),
            BaseEntry::Preprocessed { offset } => (offset, self.preprocessed),
            BaseEntry::Periodic => (0, self.periodic),
            BaseEntry::Public => (0, self.public),
        };
        offset < 2 && index < width
    }
}

/// The plan of lists of nodes. Equal nodes of all lists are one step.
pub(crate) fn plan_of<F: AuditedField>(
    lists: &[Vec<&RawValue>],
    widths: &Widths,
) -> Result<Plan<F>, ImportError> {
    let mut planner = Planner {
        widths,
        steps: Vec::new(),
        degrees: Vec::new(),
        places: HashMap::new(),
    };
    let mut roots = Vec::with_capacity(lists.len());
    for (constraint, list) in lists.iter().enumerate() {
        roots.push(planner.root_of(constraint, list)?);
    }
    let steps = planner.steps;
    Ok(Plan { steps, roots }.without_unused())
}

/// The steps so far, the degree of each, and the place of each.
struct Planner<'a, F> {
    widths: &'a Widths,
    steps: Vec<Step<F>>,
    degrees: Vec<usize>,
    places: HashMap<Step<F>, usize>,
}

impl<F: AuditedField> Planner<'_, F> {
    /// The place of a list's last node.
    fn root_of(&mut self, constraint: usize, list: &[&RawValue]) -> Result<usize, ImportError> {
        let fault_at = |at, fault| ImportError::Node {
            constraint,
            at,
            fault,
        };
        let mut places = Vec::with_capacity(list.len());
        for (at, node) in list.iter().enumerate() {
            let place = self.place_of(node, &places);
            places.push(place.map_err(|fault| fault_at(at, fault))?);
        }
        let root = *places.last().ok_or(ImportError::EmptyList { constraint })?;
        match self.missing_entry(&places, root) {
            Some((at, fault)) => Err(fault_at(at, fault)),
            None => Ok(root),
        }
    }

    /// The first node of these places that the root uses, and whose entry the AIR doesn't have. (A node that the root
    /// doesn't use may name any entry.)
    fn missing_entry(&self, places: &[usize], root: usize) -> Option<(usize, NodeFault)> {
        let fault = |place: usize| match self.steps[place] {
            Step::Leaf(Leaf::Variable(entry, index)) if !self.widths.has(entry, index) => {
                Some(NodeFault::MissingEntry { entry, index })
            }
            _ => None,
        };
        if places.iter().all(|&place| fault(place).is_none()) {
            return None;
        }
        let used = used(&self.steps, &[root]);
        let fault = |place: usize| fault(place).filter(|_| used[place]);
        let mut nodes = places.iter().enumerate();
        nodes.find_map(|(at, &place)| Some((at, fault(place)?)))
    }

    /// The place of a node's step, given the places of the earlier nodes in its list.
    fn place_of(&mut self, node: &RawValue, earlier: &[usize]) -> Result<usize, NodeFault> {
        let (step, stated) = step_of(&read(node).map_err(NodeFault::Form)?, earlier)?;
        let degree = self.degree_of(step).ok_or(NodeFault::DegreeOverflow)?;
        if let Some(stated) = stated.filter(|&stated| stated != degree) {
            return Err(NodeFault::WrongDegree { stated, degree });
        }
        let end = self.steps.len();
        let place = *self.places.entry(step).or_insert(end);
        if place == end {
            self.steps.push(step);
            self.degrees.push(degree);
        }
        Ok(place)
    }

    /// The degree of a step as p3-air counts it, if it fits `usize`.
    fn degree_of(&self, step: Step<F>) -> Option<usize> {
        match step {
            Step::Leaf(
                Leaf::IsTransition | Leaf::Constant(_) | Leaf::Variable(BaseEntry::Public, _),
            ) => Some(0),
            Step::Leaf(_) => Some(1),
            Step::Neg(x) => Some(self.degrees[x]),
            Step::Add(x, y) | Step::Sub(x, y) => Some(self.degrees[x].max(self.degrees[y])),
            Step::Mul(x, y) => self.degrees[x].checked_add(self.degrees[y]),
        }
    }
}

/// The step of a node, given the places of the earlier nodes in its list, and the degree that the node states.
fn step_of<F: AuditedField>(
    node: &Node,
    earlier: &[usize],
) -> Result<(Step<F>, Option<usize>), NodeFault> {
    let place = |operand: usize| {
        let place = earlier.get(operand).copied();
        place.ok_or(NodeFault::Operand { operand })
    };
    let places = |operands: &Operands| Ok((place(operands.x)?, place(operands.y)?));
    match node {
        Node::Leaf(leaf) => Ok((Step::Leaf(leaf_of(leaf)?), None)),
        Node::Neg { x, degree_multiple } => Ok((Step::Neg(place(*x)?), Some(*degree_multiple))),
        Node::Add(operands) => {
            let (x, y) = places(operands)?;
            Ok((Step::Add(x, y), Some(operands.degree_multiple)))
        }
        Node::Sub(operands) => {
            let (x, y) = places(operands)?;
            Ok((Step::Sub(x, y), Some(operands.degree_multiple)))
        }
        Node::Mul(operands) => {
            let (x, y) = places(operands)?;
            Ok((Step::Mul(x, y), Some(operands.degree_multiple)))
        }
    }
}

fn leaf_of<F: AuditedField>(leaf: &NodeLeaf) -> Result<Leaf<F>, NodeFault> {
    match *leaf {
        NodeLeaf::IsFirstRow => Ok(Leaf::IsFirstRow),
        NodeLeaf::IsLastRow => Ok(Leaf::IsLastRow),
        NodeLeaf::IsTransition => Ok(Leaf::IsTransition),
        NodeLeaf::Constant(number) => {
            let element = F::from_canonical(number);
            element.map(Leaf::Constant).ok_or(NodeFault::NotCanonical)
        }
        NodeLeaf::Variable { entry, index } => Ok(Leaf::Variable(entry, index)),
    }
}
