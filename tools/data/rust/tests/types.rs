//! The types that the tests print, by core::fmt and by ufmt.
#![allow(dead_code)]
use std::collections::{BTreeMap, BTreeSet};
use ufmt::{Formatter, fields, uDebug, uWrite, variants};

#[derive(Clone, Copy, Debug, PartialEq)]
pub struct Pair {
    pub x: i32,
    pub y: i32,
}

#[derive(Debug)]
pub struct Nested {
    pub first: Pair,
    pub second: Pair,
}

#[derive(Debug)]
pub struct Braces {}

#[derive(Debug)]
pub struct Parens();

#[derive(Debug)]
pub struct I32(pub i32);

#[derive(Debug)]
pub struct Tuple(pub i32, pub i32);

#[derive(Debug)]
pub enum Choice {
    A,
    B(u8, u8),
    C { x: u8, y: u8 },
}

#[derive(Debug)]
pub struct Node {
    pub value: i32,
    pub next: Option<Box<Node>>,
}

/// Any value, for random ones.
#[derive(Clone, Debug)]
pub enum Value {
    Nothing,
    Flag(bool),
    Whole(i64),
    Wide(u128),
    Float(f64),
    Half(f32),
    Character(char),
    Text(String),
    Numbers(Vec<u16>),
    Values(Vec<Value>),
    Table(BTreeMap<i8, Value>),
    Keys(BTreeSet<String>),
    Both { left: Box<Value>, right: Box<Value> },
    Maybe(Option<Box<Value>>),
    Triple((u8, Option<i32>, Box<Value>)),
    Outcome(Result<Box<Value>, ()>),
    Steps(std::ops::Range<u8>),
}

macro_rules! prints {
    ($($type:ty: $call:ident $form:tt;)*) => {
        $(impl uDebug for $type {
            fn fmt<W: uWrite>(&self, f: &mut Formatter<W>) -> Result<(), W::Error> {
                prints!(@ $call self f $form)
            }
        })*
    };
    (@ $call:ident $self:ident $f:ident ($($form:tt)*)) => { $call!($f, $self, $($form)*) };
}

prints! {
    Pair: fields (Pair { x, y });
    Nested: fields (Nested { first, second });
    Braces: fields (Braces {});
    Parens: fields (Parens());
    I32: fields (I32(value));
    Tuple: fields (Tuple(first, second));
    Choice: variants (Choice { A, B(x, y), C { x, y } });
    Node: fields (Node { value, next });
    Value: variants (Value {
        Nothing, Flag(it), Whole(it), Wide(it), Float(it), Half(it), Character(it), Text(it), Numbers(it), Values(it), Table(it),
        Keys(it), Both { left, right }, Maybe(it), Triple(it), Outcome(it), Steps(it)
    });
}
