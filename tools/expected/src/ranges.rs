//! Ranges of all six kinds.
use crate::rows::Rows;
use std::net::Ipv4Addr;
use std::ops::{Bound, RangeFull};
use std::time::Duration;

pub fn add(rows: &mut Rows) {
    rows.add("Range", &(0..5));
    rows.add("Range below zero", &(-5..-1));
    rows.add("Range of floats", &(0.5..1.5));
    rows.add("Range of char", &('a'..'z'));
    rows.add("Range of str", &("a b".."c\"d"));
    rows.add("Range of Duration", &(Duration::from_millis(1)..Duration::from_secs(2)));
    rows.add("Range of Ipv4Addr", &(Ipv4Addr::LOCALHOST..Ipv4Addr::BROADCAST));
    rows.add("Range of Option", &(Some(1)..None));
    rows.add("RangeInclusive", &(0..=5));
    rows.add("RangeInclusive of char", &(' '..='~'));
    rows.add("RangeInclusive with no more items", &ended());
    rows.add("RangeFrom", &(7..));
    rows.add("RangeFrom of char", &('x'..));
    rows.add("RangeTo", &(..7));
    rows.add("RangeTo of char", &(..'\''));
    rows.add("RangeToInclusive", &(..=-7));
    rows.add("RangeToInclusive of char", &(..='"'));
    rows.add("RangeFull", &..);
    rows.add("RangeFull in a list", &[RangeFull, RangeFull]);
    rows.add("RangeFull in Some", &Some(..));
    rows.add("ranges in a tuple", &(0..1, 'a'..='b', ..));
    rows.add("Bound included", &Bound::Included(1));
    rows.add("bounds", &(Bound::Excluded('a'), Bound::<char>::Unbounded));
}

fn ended() -> std::ops::RangeInclusive<u8> {
    let mut range = 1..=1;
    range.next();
    range
}
