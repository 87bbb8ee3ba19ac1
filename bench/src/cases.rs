//! The rows: cases of the standard input, by operation, and cases of named shapes.

use crate::fail;
use crate::shapes::Shape;
use text::{Case, Line};

/// What one row of a table is about.
pub struct Row {
    pub label: String,
    pub operation: &'static str,
    pub cases: Vec<Case>,
}

fn operation(case: &Case) -> &'static str {
    match case {
        Case::Exp(_) => "exp",
        Case::Ln(_) => "ln",
        Case::Sqrt(_) => "sqrt",
        Case::GhOrder(_) => "gh_order",
        Case::Curve { .. } => "curve",
        Case::Start { .. } => "start",
        Case::Fit { .. } => "fit",
        Case::Criterion { .. } => "criterion",
        Case::Search { .. } => "search",
        Case::Solve { .. } | Case::Inverse(_) | Case::Cholesky(_) | Case::Direction { .. } => {
            fail("the archive has no operation of linear algebra")
        }
    }
}

pub fn line(case: &Case) -> String {
    let mut line = Line::default();
    line.case(case);
    line.0
}

/// The cases of the standard input.
pub fn all_read() -> Vec<Case> {
    let lines = std::io::stdin().lines().map_while(Result::ok);
    lines
        .map(|line| Case::read(&line).unwrap_or_else(|fault| fail(&fault)))
        .collect()
}

/// The cases of the standard input, by operation in the order of its first case.
pub fn read() -> Vec<Row> {
    let mut rows: Vec<Row> = Vec::new();
    for case in all_read() {
        let operation = operation(&case);
        match rows.iter_mut().find(|row| row.operation == operation) {
            Some(row) => row.cases.push(case),
            None => rows.push(Row {
                label: operation.to_string(),
                operation,
                cases: vec![case],
            }),
        }
    }
    rows
}

const SMALL: Shape = Shape {
    code: 1,
    groups: 8,
    readings_per_group: 12,
    k: 1,
    max_rounds: 100,
};
const LARGE: Shape = Shape {
    groups: 32,
    readings_per_group: 16,
    ..SMALL
};

fn starts(shape: Shape) -> Row {
    Row {
        label: format!("start, {} readings, curve {}", shape.readings(), shape.code),
        operation: "start",
        cases: shape.starts(),
    }
}

fn fits(shape: Shape) -> Row {
    Row {
        label: format!("fit, {shape}"),
        operation: "fit",
        cases: shape.fits(),
    }
}

fn criteria(shape: Shape, order: u64) -> Row {
    Row {
        label: format!("criterion, order {order}, {shape}"),
        operation: "criterion",
        cases: shape.criteria(order),
    }
}

fn searches(shape: Shape) -> Row {
    Row {
        label: format!("search, {shape}"),
        operation: "search",
        cases: shape.searches(),
    }
}

/// The rows of the main table after those of the standard input.
pub fn shaped() -> Vec<Row> {
    let curves = |shape: Shape| (1..=4).map(move |code| Shape { code, ..shape });
    let effects = |shape: Shape| (1..=2).map(move |k| Shape { k, ..shape });
    let both = || [SMALL, LARGE].into_iter();
    let mut rows: Vec<Row> = both().flat_map(curves).map(starts).collect();
    rows.extend(both().flat_map(effects).flat_map(curves).map(fits));
    for shape in both().flat_map(effects) {
        rows.extend([1, 7].map(|order| criteria(shape, order)));
    }
    rows.extend(curves(SMALL).chain([LARGE]).map(searches));
    rows
}

/// Few rounds, each won at once, so that a fit's cost depends on its size alone.
const SHORT: Shape = Shape { max_rounds: 4, ..SMALL };

/// Fits with more readings in 8 groups.
pub fn by_readings() -> Vec<Row> {
    let shape = |readings| Shape {
        readings_per_group: readings / SHORT.groups,
        ..SHORT
    };
    [64, 128, 256, 512].map(shape).map(fits).into()
}

/// Fits of 256 readings in more groups.
pub fn by_groups() -> Vec<Row> {
    let shape = |groups| Shape {
        groups,
        readings_per_group: 256 / groups,
        ..SHORT
    };
    [4, 8, 16, 32].map(shape).map(fits).into()
}

/// Criteria with more points: as many as the order, or its square where there are two effects.
pub fn by_order() -> Vec<Row> {
    let orders = |k| [1, 3, 5, 7, 9, 11].map(|order| criteria(Shape { k, ..SMALL }, order));
    orders(1).into_iter().chain(orders(2)).collect()
}

/// The cases of the rows of this label.
pub fn print(label: &str) {
    let rows = [shaped(), by_readings(), by_groups(), by_order()].into_iter().flatten();
    match rows.into_iter().find(|row| row.label == label) {
        Some(row) => row.cases.iter().for_each(|case| println!("{}", line(case))),
        None => fail(&format!("no row '{label}'")),
    }
}
