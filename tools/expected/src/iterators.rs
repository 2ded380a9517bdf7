//! Iterators.
use crate::rows::Rows;
use std::iter;

pub fn add(rows: &mut Rows) {
    sources(rows);
    adapters(rows);
}

fn sources(rows: &mut Rows) {
    rows.add("slice::Iter", &[1, 2].iter());
    rows.add("vec::IntoIter", &vec!['a', 'b'].into_iter());
    rows.add("array::IntoIter", &["a"].into_iter());
    rows.add("slice::Chunks", &[1, 2, 3].chunks(2));
    rows.add("slice::Windows", &[1, 2, 3].windows(2));
    rows.add("option::IntoIter", &Some(1).into_iter());
    rows.add("iter::Empty", &iter::empty::<u8>());
    rows.add("iter::Once", &iter::once(1));
    rows.add("iter::Repeat", &iter::repeat("a"));
    rows.add("iter::Successors", &iter::successors(Some(1), |n| Some(n + 1)));
    rows.add("iter::FromFn", &iter::from_fn(|| Some(1)));
    rows.add("vec::Drain", &vec![1, 2, 3].drain(1..));
}

fn adapters(rows: &mut Rows) {
    let numbers = [1, 2, 3];
    rows.add("Map", &numbers.iter().map(|n| n + 1));
    rows.add("Filter", &(0..9).filter(|n| n % 2 == 0));
    rows.add("Rev", &numbers.iter().rev());
    rows.add("Enumerate", &"ab".chars().enumerate());
    rows.add("Zip", &(0..2).zip('a'..='b'));
    rows.add("Chain", &(0..2).chain(5..=6));
    rows.add("Take", &(0..).take(3));
    rows.add("Skip", &(1..4).skip(1));
    rows.add("Cloned", &numbers.iter().cloned());
    rows.add("Cycle", &(0..2).cycle());
    let mut peeked = (0..2).peekable();
    peeked.peek();
    rows.add("Peekable", &peeked);
}
