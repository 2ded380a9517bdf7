//! The calls whose instructions are counted, by the package that `x rust` writes: `calls NAME TURNS X`. Each returns the turn too, so
//! that no call is taken out of its loop. tools/data/bench/peers/calls.rs has the same calls by other crates.
use std::hint::black_box;
use ufmt::{Formatter, Full, HexOptions, debug_into, fields, line_into, pieces, pretty_into, uDebug, uWrite};

#[derive(Clone, Copy)]
pub struct Pair {
    pub x: i32,
    pub y: i32,
}

impl uDebug for Pair {
    fn fmt<W: uWrite>(&self, f: &mut Formatter<W>) -> Result<(), W::Error> {
        fields!(f, self, Pair { x, y })
    }
}

const REGISTER: HexOptions = HexOptions { upper_case: false, pad_char: b'0', pad_length: 10, ox_prefix: true };
const BIG: u128 = 340282366920938463463374607431768211455;
const LONG: u64 = 1234567890123456789;

fn with_turn(written: Result<usize, Full>, turn: usize) -> usize {
    match written {
        Ok(length) => length.wrapping_add(turn),
        Err(Full) => 0,
    }
}

macro_rules! cases {
    ($($name:ident($buffer:ident $(, $argument:ident: $type:ty)?) $write:expr;)*) => {
        $(
            #[inline(never)]
            pub fn $name(turn: usize, $($argument: $type,)? $buffer: &mut [u8]) -> usize {
                with_turn($write, turn)
            }
        )*
    };
}

cases! {
    text(buffer) line_into(buffer, &pieces!(text "Hello, world!"));
    number(buffer, x: i32) debug_into(buffer, &x);
    u64(buffer, x: u64) debug_into(buffer, &x);
    u128(buffer, x: u128) debug_into(buffer, &x);
    named(buffer, x: i32) debug_into(buffer, &Pair { x, y: x });
    pretty(buffer, x: i32) pretty_into(buffer, &Pair { x, y: x });
    hex(buffer, x: i32) line_into(buffer, &pieces!(hex x with REGISTER));
    list_of(buffer, x: &Vec<u64>) debug_into(buffer, &x.as_slice());
}

fn main() {
    let words: Vec<String> = std::env::args().collect();
    let [_, name, turns, x] = words.as_slice() else {
        panic!("usage: calls NAME TURNS X");
    };
    let (turns, x): (usize, i32) = (turns.parse().unwrap(), x.parse().unwrap());
    let list = &(0..100u64).map(|index| index.wrapping_mul(0x9E37_79B9_7F4A_7C15)).collect::<Vec<u64>>();
    let buffer = &mut [0u8; 8192][..];
    let sum: usize = match name.as_str() {
        "text" => (0..turns).map(|turn| text(turn, buffer)).sum(),
        "number" => (0..turns).map(|turn| number(turn, x, buffer)).sum(),
        "u64" => (0..turns).map(|turn| u64(turn, black_box(LONG), buffer)).sum(),
        "u128" => (0..turns).map(|turn| u128(turn, black_box(BIG), buffer)).sum(),
        "struct" => (0..turns).map(|turn| named(turn, x, buffer)).sum(),
        "pretty" => (0..turns).map(|turn| pretty(turn, x, buffer)).sum(),
        "hex" => (0..turns).map(|turn| hex(turn, x, buffer)).sum(),
        "list" => (0..turns).map(|turn| list_of(turn, list, buffer)).sum(),
        _ => 0,
    };
    println!("{sum}");
}
