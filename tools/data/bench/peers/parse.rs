//! Parses a text of one kind of values: `parse KIND json|ron|none`, with the text as input, or `parse one json|ron COUNT`.
use serde::{Deserialize, de::DeserializeOwned};
use std::collections::BTreeMap;
use std::hint::black_box;
use std::io::Read;

#[derive(Deserialize)]
struct Measurement {
    channel: u8,
    celsius: i16,
}

#[allow(dead_code)]
#[derive(Deserialize)]
enum Event {
    Started,
    Node(u16),
    Said(u32, bool),
    Lost { since: u32, peers: u8 },
}

#[inline(never)]
fn by_json<T: DeserializeOwned>(text: &[u8]) -> T {
    serde_json::from_slice(text).unwrap()
}

#[inline(never)]
fn by_ron<T: DeserializeOwned>(text: &[u8]) -> T {
    ron::from_str(std::str::from_utf8(text).unwrap()).unwrap()
}

// The value isn't dropped.
fn parse<T: DeserializeOwned>(format: &str, text: &[u8]) {
    match format {
        "json" => std::mem::forget(by_json::<T>(text)),
        "ron" => std::mem::forget(by_ron::<T>(text)),
        _ => {}
    }
}

fn whole(kind: &str, format: &str) {
    let mut text = Vec::new();
    std::io::stdin().read_to_end(&mut text).unwrap();
    match kind {
        "u64" => parse::<Vec<u64>>(format, &text),
        "u32" => parse::<Vec<u32>>(format, &text),
        "f64" | "long-f64" => parse::<Vec<f64>>(format, &text),
        "measurement" => parse::<Vec<Measurement>>(format, &text),
        "strings" | "escapes" => parse::<Vec<String>>(format, &text),
        "options" => parse::<Vec<Option<(u32, bool)>>>(format, &text),
        "event" => parse::<Vec<Event>>(format, &text),
        "map" => parse::<BTreeMap<String, Vec<u16>>>(format, &text),
        _ => panic!("no such kind"),
    }
}

fn one(format: &str, count: u32) {
    let mut sum = 0u64;
    for _ in 0..count {
        let measurement: Measurement = match format {
            "json" => by_json(black_box(b"{\"channel\":3,\"celsius\":-4}")),
            _ => by_ron(black_box(b"(channel:3,celsius:-4)")),
        };
        sum = sum.wrapping_add(u64::from(measurement.channel)).wrapping_add(measurement.celsius as u64);
    }
    println!("{sum}");
}

fn main() {
    let words: Vec<String> = std::env::args().collect();
    match words.as_slice() {
        [_, first, format, count] if first == "one" => one(format, count.parse().unwrap()),
        [_, kind, format] => whole(kind, format),
        _ => panic!("usage: parse KIND FORMAT | parse one FORMAT COUNT"),
    }
}
