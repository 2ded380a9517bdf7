//! Collections. Those whose order changes from run to run have one item.
use crate::rows::Rows;
use std::collections::{BTreeMap, BTreeSet, BinaryHeap, HashMap, HashSet, LinkedList, VecDeque};
use std::time::Duration;

pub fn add(rows: &mut Rows) {
    lists(rows);
    sets(rows);
    maps(rows);
    entries(rows);
}

fn lists(rows: &mut Rows) {
    rows.add("array", &[1, 2, 3]);
    rows.add("array, empty", &[0_u8; 0]);
    rows.add("slice", &&['a', 'b'][..]);
    rows.add("Vec, empty", &Vec::<u8>::new());
    rows.add("Vec of Vec", &vec![vec![1], vec![], vec![2, 3]]);
    rows.add("Vec of Option", &vec![Some("a"), None]);
    rows.add("VecDeque", &VecDeque::from([1, 2]));
    rows.add("LinkedList", &LinkedList::from(["a", "b"]));
    rows.add("BinaryHeap", &BinaryHeap::from([7]));
}

fn sets(rows: &mut Rows) {
    rows.add("BTreeSet", &BTreeSet::from(["a", "b"]));
    rows.add("BTreeSet, empty", &BTreeSet::<u8>::new());
    rows.add("HashSet", &HashSet::from([1]));
    rows.add("BTreeSet of tuples", &BTreeSet::from([(1, 'a'), (2, 'b')]));
    rows.add("BTreeSet of times", &BTreeSet::from([Duration::from_millis(1), Duration::from_secs(1)]));
}

fn maps(rows: &mut Rows) {
    rows.add("BTreeMap", &BTreeMap::from([("a", 1), ("b", 2)]));
    rows.add("BTreeMap, empty", &BTreeMap::<u8, u8>::new());
    rows.add("HashMap", &HashMap::from([(1, "a")]));
    rows.add("BTreeMap of BTreeMap", &BTreeMap::from([(1, BTreeMap::from([(2, [3, 4])])), (5, BTreeMap::new())]));
    rows.add("BTreeMap with tuples as keys", &BTreeMap::from([((1, 2), 3.5), ((4, 5), 6.0)]));
    rows.add("BTreeMap with lists as keys", &BTreeMap::from([(vec![1, 2], vec![3])]));
    let address = std::net::SocketAddr::from(([10, 0, 0, 1], 53));
    rows.add("BTreeMap with addresses as keys", &BTreeMap::from([(address, Duration::from_micros(250))]));
    rows.add("BTreeMap with an Ipv6Addr as key", &BTreeMap::from([(std::net::Ipv6Addr::LOCALHOST, 1)]));
    let options = BTreeMap::from([(None, "none"), (Some(1), "one")]);
    rows.add("BTreeMap with options as keys", &options);
}

fn entries(rows: &mut Rows) {
    let map = BTreeMap::from([("a", 1), ("b", 2)]);
    rows.add("btree_map::Keys", &map.keys());
    rows.add("btree_map::Iter", &map.iter());
    let mut map = map;
    rows.add("btree_map::Entry occupied", &map.entry("a"));
    rows.add("btree_map::Entry vacant", &map.entry("c"));
    let mut hashed = HashMap::from([("a", 1)]);
    rows.add("hash_map::Entry occupied", &hashed.entry("a"));
    rows.add("hash_map::Values", &hashed.values());
}
