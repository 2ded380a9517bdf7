//! Structs and enums with a derived Debug, and types that print by the builders.
use crate::rows::Rows;
use std::fmt::{Debug, Formatter, Result};

#[derive(Debug)]
struct Unit;

#[derive(Debug)]
struct NoFields {}

#[derive(Debug)]
struct Point {
    x: i32,
    y: f64,
}

#[derive(Debug)]
struct Meters(f64);

#[derive(Debug)]
struct Pair<A, B>(A, B);

#[derive(Debug)]
struct Generic<'a, T> {
    value: T,
    rest: Option<&'a Generic<'a, T>>,
}

#[derive(Debug)]
struct Raw {
    r#type: u8,
    r#match: Option<&'static str>,
}

#[derive(Debug)]
#[allow(non_camel_case_types)]
struct r#struct(u8);

#[derive(Debug)]
struct Größe {
    höhe: u8,
    名: &'static str,
}

#[derive(Debug)]
enum Shape {
    Empty,
    Größe,
    Circle(f64),
    Line(Point, Point),
    Text { at: Point, text: String },
}

pub fn add(rows: &mut Rows) {
    derived(rows);
    names(rows);
    shapes(rows);
    open(rows);
    built(rows);
}

fn derived(rows: &mut Rows) {
    rows.add("unit struct", &Unit);
    rows.add("struct without fields", &NoFields {});
    rows.add("struct", &Point { x: -1, y: 0.5 });
    rows.add("tuple struct", &Meters(2.5));
    rows.add("tuple struct of two", &Pair(Unit, 'a'));
    rows.add("tuple struct of a tuple", &Pair((), (1, 2)));
    let inner = Generic { value: 1, rest: None };
    rows.add("struct in a struct", &Generic { value: 2, rest: Some(&inner) });
    rows.add("structs in a list", &[Point { x: 0, y: 1e-7 }, Point { x: 1, y: f64::NAN }]);
}

fn names(rows: &mut Rows) {
    rows.add("fields with raw names", &Raw { r#type: 1, r#match: Some("a") });
    rows.add("struct with a raw name", &r#struct(1));
    rows.add("names past ASCII", &Größe { höhe: 1, 名: "é" });
    rows.add("variant past ASCII", &[Shape::Größe, Shape::Empty]);
}

fn shapes(rows: &mut Rows) {
    rows.add("variant", &Shape::Empty);
    rows.add("tuple variant", &Shape::Circle(1.0));
    rows.add("tuple variant of structs", &Shape::Line(Point { x: 0, y: 0.0 }, Point { x: 1, y: -1.5 }));
    rows.add("struct variant", &Shape::Text { at: Point { x: 1, y: 2.0 }, text: "a: \"b\"".to_string() });
}

/// A struct that doesn't print all of its fields.
struct Secret {
    name: &'static str,
    shown: usize,
}

impl Debug for Secret {
    fn fmt(&self, f: &mut Formatter) -> Result {
        let mut builder = f.debug_struct(self.name);
        for number in 0..self.shown {
            builder.field(["user", "address", "port"][number], &(number + 1));
        }
        builder.finish_non_exhaustive()
    }
}

fn open(rows: &mut Rows) {
    rows.add("open struct without fields", &Secret { name: "Login", shown: 0 });
    rows.add("open struct", &Secret { name: "Login", shown: 1 });
    rows.add("open struct of three fields", &Secret { name: "Login", shown: 3 });
    rows.add("open structs in a list", &[Secret { name: "A", shown: 0 }, Secret { name: "B", shown: 2 }]);
    rows.add("open struct in Some in a tuple", &(Some(Secret { name: "A", shown: 1 }), 1));
    let pair = Generic { value: Secret { name: "Inner", shown: 1 }, rest: None };
    rows.add("open struct in a struct", &pair);
}

/// What a call of a builder prints.
struct Built(fn(&mut Formatter) -> Result);

impl Debug for Built {
    fn fmt(&self, f: &mut Formatter) -> Result {
        (self.0)(f)
    }
}

fn built(rows: &mut Rows) {
    rows.add("DebugList", &Built(|f| f.debug_list().entry(&1).entries(["a", "b"]).finish()));
    rows.add("DebugList, empty", &Built(|f| f.debug_list().finish()));
    rows.add("DebugSet", &Built(|f| f.debug_set().entry(&1.5).entry(&Unit).finish()));
    rows.add("DebugMap", &Built(|f| f.debug_map().entry(&"a", &1).key(&(1, 2)).value(&Meters(0.5)).finish()));
    rows.add("DebugTuple without a name", &Built(|f| f.debug_tuple("").field(&1).field(&2).finish()));
    let path = |f: &mut Formatter| f.debug_struct("path::Name").field("a", &1).finish();
    rows.add("DebugStruct with a path as name", &Built(path));
    let words = |f: &mut Formatter| f.debug_struct("Name of words").field("a", &1).finish();
    rows.add("DebugStruct with spaces in its name", &Built(words));
    rows.add("open list", &Built(|f| f.debug_list().entry(&1).finish_non_exhaustive()));
    rows.add("open set", &Built(|f| f.debug_set().entry(&1).finish_non_exhaustive()));
    rows.add("open map", &Built(|f| f.debug_map().entry(&1, &2).finish_non_exhaustive()));
    rows.add("open tuple", &Built(|f| f.debug_tuple("T").field(&1).finish_non_exhaustive()));
}
