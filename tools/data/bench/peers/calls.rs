//! The calls whose instructions `x bench calls` counts, by core::fmt and, with the feature `ufmt`, by that crate:
//! `calls LIBRARY NAME TURNS X`. Each returns the turn too, so that no call is taken out of its loop.
use std::fmt;
use std::hint::black_box;
#[cfg(feature = "ufmt")]
use ufmt::{derive::uDebug, uWrite};

pub struct Full;

/// Writes to the front of a buffer.
pub struct Front<'a> {
    buffer: &'a mut [u8],
    length: usize,
}

impl Front<'_> {
    #[inline(always)]
    fn put(&mut self, text: &str) -> Result<(), Full> {
        if text.len() > self.buffer.len() - self.length {
            return Err(Full);
        }
        let end = self.length + text.len();
        self.buffer.get_mut(self.length..end).ok_or(Full)?.copy_from_slice(text.as_bytes());
        self.length = end;
        Ok(())
    }
}

impl fmt::Write for Front<'_> {
    #[inline]
    fn write_str(&mut self, text: &str) -> fmt::Result {
        self.put(text).map_err(|Full| fmt::Error)
    }
}

#[cfg(feature = "ufmt")]
impl uWrite for Front<'_> {
    type Error = Full;

    #[inline]
    fn write_str(&mut self, text: &str) -> Result<(), Full> {
        self.put(text)
    }
}

#[derive(Clone, Copy, Debug)]
#[cfg_attr(feature = "ufmt", derive(uDebug))]
pub struct Pair {
    pub x: i32,
    pub y: i32,
}

macro_rules! cases {
    ($write:ident; $($name:ident($($argument:ident: $type:ty),*) $form:literal $(, $value:expr)*;)*) => {
        $(
            #[inline(never)]
            pub fn $name(turn: usize, $($argument: $type,)* buffer: &mut [u8]) -> usize {
                let mut front = Front { buffer, length: 0 };
                if $write!(&mut front, $form $(, $value)*).is_err() {
                    return 0;
                }
                front.length.wrapping_add(turn)
            }
        )*
    };
}

macro_rules! module {
    ($module:ident, $write:ident) => {
        pub mod $module {
            use super::{Front, Pair};
            #[allow(unused_imports)]
            use std::fmt::Write;
            #[allow(unused_imports)]
            #[cfg(feature = "ufmt")]
            use ufmt::uwrite;

            cases! {
                $write;
                text() "Hello, world!";
                number(x: i32) "{}", x;
                u64(x: u64) "{}", x;
                u128(x: u128) "{}", x;
                named(x: i32) "{:?}", Pair { x, y: x };
                pretty(x: i32) "{:#?}", Pair { x, y: x };
                hex(x: i32) "{:#010x}", x;
                hex_digits(x: i32) "{:x}", x;
                hex_u64(x: u64) "{:x}", x;
                hex_line(x: i32) "at {:#010x}: {:#010x}\n", x, !x;
                list(x: &Vec<u64>) "{:?}", x;
            }
        }
    };
}

module!(by_core, write);
#[cfg(feature = "ufmt")]
module!(by_ufmt, uwrite);

const BIG: u128 = 340282366920938463463374607431768211455;
const LONG: u64 = 1234567890123456789;

macro_rules! sum {
    ($module:ident, $name:ident, $turns:ident, $x:ident, $list:ident, $buffer:ident) => {
        match $name.as_str() {
            "text" => (0..$turns).map(|turn| $module::text(turn, $buffer)).sum(),
            "number" => (0..$turns).map(|turn| $module::number(turn, $x, $buffer)).sum(),
            "u64" => (0..$turns).map(|turn| $module::u64(turn, black_box(LONG), $buffer)).sum(),
            "u128" => (0..$turns).map(|turn| $module::u128(turn, black_box(BIG), $buffer)).sum(),
            "struct" => (0..$turns).map(|turn| $module::named(turn, $x, $buffer)).sum(),
            "pretty" => (0..$turns).map(|turn| $module::pretty(turn, $x, $buffer)).sum(),
            "hex" => (0..$turns).map(|turn| $module::hex(turn, $x, $buffer)).sum(),
            "hex_digits" => (0..$turns).map(|turn| $module::hex_digits(turn, $x, $buffer)).sum(),
            "hex_u64" => (0..$turns).map(|turn| $module::hex_u64(turn, black_box(LONG), $buffer)).sum(),
            "hex_line" => (0..$turns).map(|turn| $module::hex_line(turn, $x, $buffer)).sum(),
            "list" => (0..$turns).map(|turn| $module::list(turn, $list, $buffer)).sum(),
            _ => 0,
        }
    };
}

fn main() {
    let words: Vec<String> = std::env::args().collect();
    let [_, library, name, turns, x] = words.as_slice() else {
        panic!("usage: calls LIBRARY NAME TURNS X");
    };
    let (turns, x): (usize, i32) = (turns.parse().unwrap(), x.parse().unwrap());
    let list = &(0..100u64).map(|index| index.wrapping_mul(0x9E37_79B9_7F4A_7C15)).collect::<Vec<u64>>();
    let buffer = &mut [0u8; 8192][..];
    let sum: usize = match library.as_str() {
        "core" => sum!(by_core, name, turns, x, list, buffer),
        #[cfg(feature = "ufmt")]
        "ufmt" => sum!(by_ufmt, name, turns, x, list, buffer),
        _ => 0,
    };
    println!("{sum}");
}
