//! Random values have the texts that core::fmt prints of them.
mod types;

use std::collections::{BTreeMap, BTreeSet};
use types::Value;
use ufmt::{Decimal, Formatter, HexOptions, Radix, plain_text, pretty_text, uDisplay, uDisplayFixed, uDisplayHex, uDisplayRadix, uDisplayZeros};

const VALUES: usize = 10_000;
const FLOATS: usize = 10_000;

/// Numbers from a seed, by xorshift.
struct Random(u64);

impl Random {
    fn next(&mut self) -> u64 {
        self.0 ^= self.0 << 13;
        self.0 ^= self.0 >> 7;
        self.0 ^= self.0 << 17;
        self.0.wrapping_mul(0x2545_f491_4f6c_dd1d)
    }

    fn below(&mut self, count: u64) -> u64 {
        (self.next() >> 33) % count
    }

    // Of any length in bits.
    fn number(&mut self) -> u64 {
        let shift = self.below(64);
        self.next() >> shift
    }

    fn character(&mut self) -> char {
        match self.below(8) {
            0 => char::from(self.below(128) as u8),
            1 => ['é', '€', '日', '𝄞', 'ß', '\\', '"', '\''][self.below(8) as usize],
            _ => char::from(b' ' + self.below(95) as u8),
        }
    }

    fn text(&mut self) -> String {
        (0..self.below(20)).map(|_| self.character()).collect()
    }

    fn float(&mut self) -> f64 {
        match self.below(4) {
            0 => f64::from_bits(self.next()),
            1 => self.number() as f64 / 1000.0,
            2 => self.number() as i32 as f64,
            _ => [0.0, -0.0, 1e16, 1e-5, 0.1, f64::MAX, f64::MIN_POSITIVE, f64::NAN][self.below(8) as usize],
        }
    }

    fn value(&mut self, depth: u64) -> Value {
        let kinds = if depth == 0 { 10 } else { 18 };
        match self.below(kinds) {
            0 => Value::Nothing,
            1 => Value::Flag(self.below(2) == 0),
            2 => Value::Whole(self.number() as i64),
            3 => Value::Wide((self.number() as u128) << 64 | self.next() as u128),
            4 => Value::Float(self.float()),
            5 => Value::Half(self.float() as f32),
            6 => Value::Character(self.character()),
            7 => Value::Text(self.text()),
            8 => Value::Numbers((0..self.below(5)).map(|_| self.number() as u16).collect()),
            9 => Value::Steps(self.number() as u8..self.number() as u8),
            10 => Value::Values((0..self.below(5)).map(|_| self.value(depth - 1)).collect()),
            11 => Value::Table((0..self.below(4)).map(|_| (self.number() as i8, self.value(depth - 1))).collect::<BTreeMap<_, _>>()),
            12 => Value::Keys((0..self.below(4)).map(|_| self.text()).collect::<BTreeSet<_>>()),
            13 => Value::Both { left: self.boxed(depth), right: self.boxed(depth) },
            14 => Value::Maybe(if self.below(4) == 0 { None } else { Some(self.boxed(depth)) }),
            15 => Value::Triple((self.number() as u8, Some(self.number() as i32), self.boxed(depth))),
            16 => Value::Outcome(if self.below(4) == 0 { Err(()) } else { Ok(self.boxed(depth)) }),
            _ => Value::Values((0..self.below(3)).map(|_| self.value(depth - 1)).collect()),
        }
    }

    fn boxed(&mut self, depth: u64) -> Box<Value> {
        Box::new(self.value(depth - 1))
    }
}

#[test]
fn random_values_print_as_by_core_fmt() {
    let mut random = Random(0x1234_5678_9abc_def1);
    for _ in 0..VALUES {
        let value = random.value(4);
        assert_eq!(plain_text(&value).unwrap(), format!("{value:?}"));
        assert_eq!(pretty_text(&value).unwrap(), format!("{value:#?}"));
    }
}

// The text that a call of a formatter writes.
fn text(print: impl FnOnce(&mut Formatter<&mut String>)) -> String {
    let mut text = String::new();
    print(&mut Formatter::new(&mut text));
    text
}

#[test]
fn random_floats_print_as_by_core_fmt() {
    let mut random = Random(0xfedc_ba98_7654_3211);
    for _ in 0..FLOATS {
        let (x, decimals) = (random.float(), random.below(30) as usize);
        assert_eq!(plain_text(&x).unwrap(), format!("{x:?}"));
        assert_eq!(text(|f| uDisplay::fmt(&x, f).unwrap()), format!("{x}"));
        assert_eq!(text(|f| x.fmt_fixed(f, decimals).unwrap()), format!("{x:.decimals$}"));
        let y = x as f32;
        assert_eq!(plain_text(&y).unwrap(), format!("{y:?}"));
        assert_eq!(text(|f| uDisplay::fmt(&y, f).unwrap()), format!("{y}"));
        assert_eq!(text(|f| y.fmt_fixed(f, decimals).unwrap()), format!("{y:.decimals$}"));
    }
    for decimals in [30, 64, 340, 1074, 1100] {
        let x = f64::from_bits(random.next() & !(1 << 62));
        assert_eq!(text(|f| x.fmt_fixed(f, decimals).unwrap()), format!("{x:.decimals$}"));
    }
}

#[test]
fn random_numbers_print_in_each_radix_as_by_core_fmt() {
    let mut random = Random(0x0f0f_1234_0f0f_4321);
    for _ in 0..FLOATS {
        let (n, width) = (random.number() as i64, random.below(30) as usize);
        let zeros = HexOptions { upper_case: false, pad_char: b'0', pad_length: width, ox_prefix: true };
        assert_eq!(text(|f| n.fmt_hex(f, zeros).unwrap()), format!("{n:#0width$x}"));
        assert_eq!(text(|f| n.fmt_radix(f, Radix::Binary, zeros).unwrap()), format!("{n:#0width$b}"));
        assert_eq!(text(|f| (n as i16).fmt_radix(f, Radix::Octal, zeros).unwrap()), format!("{:#0width$o}", n as i16));
        let spaces = HexOptions { upper_case: true, pad_char: b' ', pad_length: width, ox_prefix: false };
        assert_eq!(text(|f| n.fmt_hex(f, spaces).unwrap()), format!("{n:>width$X}"));
        assert_eq!(text(|f| n.fmt_zeros(f, width).unwrap()), format!("{n:0width$}"));
        let decimal = Decimal { value: n, places: 3 };
        let whole = n.unsigned_abs();
        let sign = if n < 0 { "-" } else { "" };
        assert_eq!(text(|f| uDisplay::fmt(&decimal, f).unwrap()), format!("{sign}{}.{:03}", whole / 1000, whole % 1000));
    }
}
