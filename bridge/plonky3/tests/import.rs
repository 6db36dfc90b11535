//! What is read from objects, and which objects are refused.

use air_check_bridge::{Imported, Options, export, export_labelled, export_with, import};
use p3_air::symbolic::AirLayout;
use p3_air::{
    Air, AirBuilder, BaseAir, DebugConstraintBuilder, FilteredAirBuilder, PermutationAirBuilder,
    SymbolicAirBuilder, WindowAccess, check_all_constraints, get_symbolic_constraints,
};
use p3_baby_bear::BabyBear;
use p3_field::PrimeCharacteristicRing;
use p3_field::extension::BinomialExtensionField;
use p3_matrix::dense::RowMajorMatrix;
use serde_json::{Value, json};

type EF = BinomialExtensionField<BabyBear, 4>;

fn leaf(entry: Value, index: usize) -> Value {
    json!({"Leaf": {"Variable": {"entry": entry, "index": index}}})
}

fn main_column(offset: usize, index: usize) -> Value {
    leaf(json!({"Main": {"offset": offset}}), index)
}

/// Column 1 of the next row is the product of both columns, and a public value is 5.
fn object() -> Value {
    json!({
        "main_width": 2,
        "main": [2, 3, 7, 6],
        "public_values": [5],
        "constraints": [
            [
                main_column(1, 1),
                main_column(0, 0),
                main_column(0, 1),
                {"Mul": {"degree_multiple": 2, "x": 1, "y": 2}},
                {"Sub": {"degree_multiple": 2, "x": 0, "y": 3}},
                {"Leaf": "IsTransition"},
                {"Mul": {"degree_multiple": 2, "x": 5, "y": 4}},
            ],
            [
                leaf(json!("Public"), 0),
                {"Leaf": {"Constant": 5}},
                {"Sub": {"degree_multiple": 0, "x": 0, "y": 1}},
            ],
        ],
    })
}

/// The object with another value of a member, or with one more.
fn with(name: &str, value: Value) -> Value {
    let mut object = object();
    object[name] = value;
    object
}

fn imported(object: &Value) -> Imported<BabyBear> {
    import(&object.to_string()).unwrap()
}

/// The labels of a check's failures.
fn failing<A>(air: &A, trace: &RowMajorMatrix<BabyBear>, public: u32) -> Vec<Option<String>>
where
    A: for<'a> Air<DebugConstraintBuilder<'a, BabyBear>>,
{
    let report = check_all_constraints(air, trace, &[BabyBear::new(public)], None);
    report.failures.into_iter().map(|it| it.label).collect()
}

#[test]
fn an_air_is_read() {
    let Imported {
        air,
        trace,
        public_values,
    } = imported(&object());
    assert_eq!(public_values, [BabyBear::new(5)]);
    assert!(failing(&air, &trace, 5).is_empty());
    assert_eq!(failing(&air, &trace, 4), [None, None]);
    assert_eq!(air.num_constraints(), Some(2));
    assert_eq!(air.labels(), ["", ""]);
}

#[test]
fn constraints_are_asserted_under_their_labels() {
    let Imported { air, trace, .. } = imported(&with("labels", json!(["product"])));
    assert_eq!(air.labels(), ["product", ""]);
    let air = air.with_labels();
    assert_eq!(failing(&air, &trace, 4), [None, None]);
    let other = RowMajorMatrix::new([2, 3, 7, 0].map(BabyBear::new).to_vec(), 2);
    assert_eq!(failing(&air, &other, 5), [Some("product".to_owned())]);
    let options = Options::default();
    let public_values = [BabyBear::new(5)];
    let back = export_labelled::<BabyBear, _>(&air, &trace, &public_values, &options).unwrap();
    assert_eq!(back["labels"], json!(["product", ""]));
}

#[test]
fn the_columns_of_the_next_row_are_exact() {
    let mut object = with("preprocessed_width", json!(4));
    object["preprocessed"] = json!([0, 0, 0, 0, 0, 0, 0, 0]);
    let air = imported(&object).air;
    assert_eq!(air.main_next_row_columns(), [1]);
    assert!(air.preprocessed_next_row_columns().is_empty());
    // The last node uses neither of the two before it.
    let next = |index| leaf(json!({"Preprocessed": {"offset": 1}}), index);
    let list = json!([main_column(1, 0), next(1), next(3)]);
    object["constraints"].as_array_mut().unwrap().push(list);
    let air = imported(&object).air;
    assert_eq!(air.main_next_row_columns(), [1]);
    assert_eq!(air.preprocessed_next_row_columns(), [3]);
}

#[test]
fn boundary_values_become_constraints() {
    let cell = json!([{"column": 1, "end": "Last", "public_value": 0}]);
    let Imported { air, trace, .. } = imported(&with("boundary", cell));
    let failures = failing(&air.clone().with_labels(), &trace, 5);
    assert_eq!(failures.len(), 1);
    let air = air.with_labels().with_cells_as_constraints();
    assert!(air.public_boundary_io().is_empty());
    assert_eq!(air.num_constraints(), Some(3));
    assert_eq!(failing(&air, &trace, 5), failures);
}

#[test]
fn the_last_of_two_members_counts() {
    let wanted = imported(&object()).air;
    let text = object().to_string();
    let text = text.replace("\"main_width\":2", "\"main_width\":0,\"main_width\":2");
    let text = text.replace("\"x\":5", "\"x\":4,\"note\":[],\"x\":5");
    let air = import::<BabyBear>(&text).unwrap().air;
    assert_eq!(format!("{air:?}"), format!("{wanted:?}"));
}

#[test]
fn equal_nodes_are_computed_once_and_unused_ones_never() {
    let unary = |x: usize| json!({"Neg": {"degree_multiple": 1, "x": x}});
    let binary = |name: &str, x: usize, y: usize, degree: usize| {
        let operation = json!({"degree_multiple": degree, "x": x, "y": y});
        json!({name: operation})
    };
    let short = json!([
        main_column(0, 0),
        main_column(0, 1),
        unary(0),
        binary("Add", 1, 2, 1),
        binary("Sub", 2, 3, 1),
        binary("Mul", 4, 3, 2),
    ]);
    let long = json!([
        main_column(2, 9), // an unused node may name a missing entry
        unary(0),
        main_column(0, 0),
        main_column(0, 1),
        main_column(0, 1),
        unary(2),
        binary("Add", 3, 5, 1),
        binary("Add", 4, 5, 1),
        binary("Sub", 5, 6, 1),
        binary("Mul", 8, 7, 2),
    ]);
    let air = |lists: Value| format!("{:?}", imported(&with("constraints", lists)).air);
    let wanted = air(json!([short, short]));
    assert_eq!(air(json!([long, short])), wanted);
    assert_eq!(air(json!([short, long])), wanted);
}

/// An AIR within another one, under a filter.
struct Outer<A>(A);

impl<F, A: BaseAir<F>> BaseAir<F> for Outer<A> {
    fn width(&self) -> usize {
        self.0.width()
    }
    fn num_public_values(&self) -> usize {
        self.0.num_public_values()
    }
}

impl<AB: AirBuilder, A> Air<AB> for Outer<A>
where
    A: BaseAir<AB::F> + for<'a> Air<FilteredAirBuilder<'a, AB>>,
{
    fn eval(&self, builder: &mut AB) {
        self.0.eval(&mut builder.when_first_row());
    }
}

#[test]
fn it_is_a_part_of_another_air() {
    let Imported { air, trace, .. } = imported(&object());
    let outer = Outer(air);
    assert!(failing(&outer, &trace, 5).is_empty());
    let layout = AirLayout::from_air::<BabyBear>(&outer);
    let constraints = get_symbolic_constraints::<BabyBear, _>(&outer, layout);
    let degrees: Vec<_> = constraints.iter().map(|it| it.degree_multiple()).collect();
    assert_eq!(degrees, [3, 1]);
}

/// It is an AIR on each builder, and threads may share it.
#[test]
fn it_suits_builders() {
    fn suits<A>(_: &A)
    where
        A: Air<SymbolicAirBuilder<BabyBear>> + Air<SymbolicAirBuilder<BabyBear, EF>>,
        A: for<'a> Air<DebugConstraintBuilder<'a, BabyBear>>,
        A: for<'a> Air<DebugConstraintBuilder<'a, BabyBear, EF>>,
        A: Send + Sync + 'static,
    {
    }
    let air = imported(&object()).air;
    suits(&air);
    suits(&air.with_labels());
}

fn refusal(object: &Value) -> String {
    import::<BabyBear>(&object.to_string())
        .unwrap_err()
        .to_string()
}

/// Each of these values of a member is refused with a text that begins so.
#[test]
fn refused_members() {
    let cell = |column: usize| json!({"column": column, "end": "Last", "public_value": 0});
    for (name, value, wanted) in [
        (
            "field",
            json!("Goldilocks"),
            "the object is over Goldilocks, and is read over BabyBear",
        ),
        (
            "field",
            json!(0),
            "the member `field` has a wrong form: invalid type: integer `0`",
        ),
        (
            "main",
            json!([0, -1]),
            "the member `main` has a wrong form: invalid value: integer `-1`",
        ),
        (
            "main",
            json!([0, 1.0]),
            "the member `main` has a wrong form: invalid type: floating",
        ),
        (
            "main",
            json!([0, 2013265921]),
            "a number of `main` is not below the modulus",
        ),
        (
            "main",
            json!([0, 0, 0]),
            "the values of `main` don't fill whole rows",
        ),
        (
            "main_width",
            json!(0),
            "the values of `main` don't fill whole rows",
        ),
        (
            "main_width",
            json!(null),
            "the member `main_width` has a wrong form: invalid type: null",
        ),
        (
            "preprocessed_width",
            json!(1),
            "the member `preprocessed` is missing",
        ),
        (
            "preprocessed",
            json!([0, 0]),
            "the member `preprocessed_width` is missing",
        ),
        (
            "public_values",
            json!([2013265921]),
            "a number of `public_values` is not below",
        ),
        (
            "public_values",
            json!([]),
            "constraint 1, node 0: the AIR has no entry Public of index 0",
        ),
        (
            "periodic",
            json!([[1, 2], []]),
            "a periodic column has length 0, no power of two",
        ),
        (
            "periodic",
            json!([[1, 2, 3]]),
            "a periodic column has length 3, no power of two",
        ),
        (
            "periodic",
            json!(null),
            "the member `periodic` has a wrong form: invalid type: null",
        ),
        ("constraints", json!([[]]), "constraint 0 has no nodes"),
        (
            "constraints",
            json!([{}]),
            "the member `constraints` has a wrong form: invalid type: map",
        ),
        (
            "boundary",
            json!([{}]),
            "the member `boundary` has a wrong form: missing field `column`",
        ),
        (
            "boundary",
            json!([cell(2)]),
            "boundary-IO column 2 is out of range",
        ),
        (
            "boundary",
            json!([cell(1), cell(1)]),
            "boundary-IO declares column 1 twice",
        ),
        (
            "labels",
            json!(["", "", ""]),
            "there are 3 labels for 2 constraints",
        ),
        (
            "labels",
            json!([0]),
            "the member `labels` has a wrong form: invalid type: integer",
        ),
    ] {
        let said = refusal(&with(name, value));
        assert!(said.starts_with(wanted), "{said:?} for {wanted:?}");
    }
}

/// Each of these nodes in place of another is refused with a text that begins so.
#[test]
fn refused_nodes() {
    let add = |x: usize, degree: usize| json!({"Add": {"degree_multiple": degree, "x": x, "y": 0}});
    for (constraint, at, node, wanted) in [
        (
            0,
            3,
            json!({"Div": {}}),
            "constraint 0, node 3: wrong form: unknown variant `Div`",
        ),
        (
            0,
            3,
            json!({"Add": {"x": 0}}),
            "constraint 0, node 3: wrong form: missing field `y`",
        ),
        (1, 2, json!(7), "constraint 1, node 2: wrong form: "),
        (
            1,
            2,
            add(2, 0),
            "constraint 1, node 2: operand 2 is no earlier node",
        ),
        (
            0,
            4,
            add(3, 1),
            "constraint 0, node 4: the stated degree is 1, and the degree is 2",
        ),
        (
            0,
            4,
            add(3, 3),
            "constraint 0, node 4: the stated degree is 3, and the degree is 2",
        ),
        (
            1,
            1,
            json!({"Leaf": {"Constant": 2013265921}}),
            "constraint 1, node 1: the constant is not below the modulus",
        ),
        (
            0,
            0,
            main_column(2, 1),
            "constraint 0, node 0: the AIR has no entry Main { offset: 2 } of index 1",
        ),
        (
            0,
            0,
            leaf(json!("Periodic"), 0),
            "constraint 0, node 0: the AIR has no entry Periodic of index 0",
        ),
    ] {
        let mut object = object();
        object["constraints"][constraint][at] = node;
        let said = refusal(&object);
        assert!(said.starts_with(wanted), "{said:?} for {wanted:?}");
    }
}

#[test]
fn a_degree_past_64_bits_is_refused() {
    let square =
        |at: usize| json!({"Mul": {"degree_multiple": 1_u64 << (at + 1), "x": at, "y": at}});
    let mut list = vec![main_column(0, 0)];
    list.extend((0..63).map(square));
    let last = json!({"Mul": {"degree_multiple": 0, "x": 63, "y": 63}});
    imported(&with("constraints", json!([list.clone()])));
    list.push(last);
    let said = refusal(&with("constraints", json!([list])));
    assert_eq!(said, "constraint 0, node 64: the degree is too great");
}

#[test]
fn other_texts_are_refused() {
    let said = |text: &str| import::<BabyBear>(text).unwrap_err().to_string();
    for text in ["", "[]", "{} 0", "{\"main\":[}"] {
        assert!(said(text).starts_with("the text is no JSON object: "));
    }
    assert_eq!(said("{}"), "the member `main_width` is missing");
}

#[test]
fn what_p3_air_simplifies_comes_back_simplified() {
    // (0 + x) * 1, which p3-air never records, is x.
    let list = json!([
        {"Leaf": {"Constant": 0}},
        main_column(0, 0),
        {"Add": {"degree_multiple": 1, "x": 0, "y": 1}},
        {"Leaf": {"Constant": 1}},
        {"Mul": {"degree_multiple": 1, "x": 2, "y": 3}},
    ]);
    let Imported {
        air,
        trace,
        public_values,
    } = imported(&with("constraints", json!([list])));
    let back = export(&air, &trace, &public_values).unwrap();
    assert_eq!(back["constraints"], json!([[main_column(0, 0)]]));
}

/// A constraint over the base field between two over the extension.
struct Mixed;

impl BaseAir<BabyBear> for Mixed {
    fn width(&self) -> usize {
        1
    }
}

impl<AB: PermutationAirBuilder<F = BabyBear>> Air<AB> for Mixed {
    fn eval(&self, builder: &mut AB) {
        let permutation: AB::ExprEF = builder.permutation().current(0).unwrap().into();
        builder.assert_zero_ext(permutation.clone());
        let main = builder.main();
        builder.assert_zero(main.current(0).unwrap());
        builder.assert_zero_ext(permutation);
    }
}

/// The places of the constraints over the base field, and of those over the extension.
fn places<A>(air: &A, layout: AirLayout) -> (Vec<usize>, Vec<usize>)
where
    A: Air<SymbolicAirBuilder<BabyBear, EF>>,
{
    let mut builder = SymbolicAirBuilder::new(layout);
    air.eval(&mut builder);
    let layout = builder.constraint_layout();
    (layout.base_indices, layout.ext_indices)
}

/// What is read is another AIR: its constraints have other places, and so other powers of a challenge.
#[test]
fn constraints_over_an_extension_do_not_come_back() {
    let layout = AirLayout {
        permutation_width: 1,
        ..AirLayout::from_air::<BabyBear>(&Mixed)
    };
    let options = Options {
        layout: Some(layout),
        leave_out_extension: true,
        ..Options::default()
    };
    let trace = RowMajorMatrix::new(vec![BabyBear::ONE], 1);
    let object = export_with::<EF, _>(&Mixed, &trace, &[], &options).unwrap();
    assert_eq!(places(&Mixed, layout), (vec![1], vec![0, 2]));
    assert_eq!(places(&imported(&object).air, layout), (vec![0], vec![]));
}
