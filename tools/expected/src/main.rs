//! Prints rows: each has an id, and a value's text by `{:?}` and by `{:#?}`. No text may change from run to run: that of an
//! Instant, a TypeId or a place in memory would, so there is none.

// A derived Debug reads the fields, which isn't counted as a use.
#![allow(dead_code)]

mod addresses;
mod cells;
mod collections;
mod configurations;
mod errors;
mod iterators;
mod numbers;
mod own_types;
mod paths;
mod ranges;
mod rows;
mod small_types;
mod texts;

fn main() {
    let mut rows = rows::Rows::default();
    numbers::add(&mut rows);
    texts::add(&mut rows);
    addresses::add(&mut rows);
    ranges::add(&mut rows);
    small_types::add(&mut rows);
    collections::add(&mut rows);
    cells::add(&mut rows);
    errors::add(&mut rows);
    paths::add(&mut rows);
    iterators::add(&mut rows);
    own_types::add(&mut rows);
    configurations::add(&mut rows);
    print!("{}", rows.text());
}
