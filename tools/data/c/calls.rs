//! Makes the calls that its input asks for and prints what they did, as calls.c beside it. The
//! declarations are written from ufmt.h, as a caller writes them.
use std::fmt::Debug;
use std::io::{self, Write};
use std::str::{FromStr, SplitWhitespace};

const FILL: u8 = 0xa5;
const DETAIL: usize = 777;

#[repr(C)]
struct HexStyle {
    struct_size: usize,
    width: usize,
    pad: u8,
    upper_case: bool,
    prefix: bool,
}

#[repr(C)]
struct DumpStyle {
    struct_size: usize,
    per_row: usize,
    group: usize,
    first: u32,
    has_offsets: bool,
    has_text: bool,
}

#[repr(C)]
struct ColumnStyle {
    struct_size: usize,
    width: usize,
    fill: u32,
    align: u8,
}

#[link(name = "ufmt_c", kind = "static")]
#[rustfmt::skip]
unsafe extern "C" {
    fn ufmt_version() -> u32;
    fn ufmt_is_text(text_class: u32, mode: u32, input: *const u8, length: usize) -> bool;
    fn ufmt_convert(buffer: *mut u8, size: usize, text_class: u32, to: u32, input: *const u8, length: usize, detail: &mut usize) -> isize;
    fn ufmt_field(text_class: u32, line: *const u8, length: usize, name: *const u8, name_length: usize, detail: &mut usize) -> isize;
    fn ufmt_parse_unsigned(number: &mut u64, input: *const u8, length: usize, detail: &mut usize) -> isize;
    fn ufmt_parse_signed(number: &mut i64, input: *const u8, length: usize, detail: &mut usize) -> isize;
    fn ufmt_quote(to: *mut u8, size: usize, input: *const u8, length: usize, detail: &mut usize) -> isize;
    fn ufmt_unquote(to: *mut u8, size: usize, input: *const u8, length: usize, detail: &mut usize) -> isize;
    fn ufmt_unquote_debug(to: *mut u8, size: usize, input: *const u8, length: usize, detail: &mut usize) -> isize;
    fn ufmt_unsigned(to: *mut u8, size: usize, number: u64, detail: &mut usize) -> isize;
    fn ufmt_signed(to: *mut u8, size: usize, number: i64, detail: &mut usize) -> isize;
    fn ufmt_float(to: *mut u8, size: usize, number: f64, detail: &mut usize) -> isize;
    fn ufmt_float_fixed(to: *mut u8, size: usize, number: f64, decimals: usize, detail: &mut usize) -> isize;
    fn ufmt_parse_float(number: &mut f64, input: *const u8, length: usize, detail: &mut usize) -> isize;
    fn ufmt_hexadecimal(to: *mut u8, size: usize, number: u64, style: &HexStyle, detail: &mut usize) -> isize;
    fn ufmt_binary(to: *mut u8, size: usize, number: u64, style: &HexStyle, detail: &mut usize) -> isize;
    fn ufmt_dump(to: *mut u8, size: usize, bytes: *const u8, length: usize, style: &DumpStyle, detail: &mut usize) -> isize;
    fn ufmt_in_column(to: *mut u8, size: usize, input: *const u8, length: usize, style: &ColumnStyle, detail: &mut usize) -> isize;
    fn ufmt_first_difference(given: *const u8, given_length: usize, stored: *const u8, stored_length: usize, detail: &mut usize) -> isize;
    fn ufmt_difference(to: *mut u8, size: usize, given: *const u8, given_length: usize, stored: *const u8, stored_length: usize, detail: &mut usize) -> isize;
}

type OnBytes = unsafe extern "C" fn(*mut u8, usize, *const u8, usize, &mut usize) -> isize;
type OnNumber = unsafe extern "C" fn(*mut u8, usize, u64, &HexStyle, &mut usize) -> isize;

/// The words of a line, after the call's name.
struct Words<'a>(SplitWhitespace<'a>);

impl Words<'_> {
    fn word(&mut self) -> &str {
        self.0.next().expect("a line has too few words")
    }

    fn number<N: FromStr<Err: Debug>>(&mut self) -> N {
        self.word().parse().expect("a number")
    }

    fn flag(&mut self) -> bool {
        self.number::<u8>() == 1
    }

    /// An input, or nothing if it is at NULL.
    fn input(&mut self) -> Option<Vec<u8>> {
        let pair = |at: usize, digits: &str| u8::from_str_radix(&digits[at..at + 2], 16).expect("digits");
        match self.word() {
            "null" => None,
            "-" => Some(vec![]),
            digits => Some((0..digits.len()).step_by(2).map(|at| pair(at, digits)).collect()),
        }
    }

    /// A buffer, or nothing if it is at NULL.
    fn buffer(&mut self) -> Option<Vec<u8>> {
        match self.word() {
            "null" => None,
            size => Some(vec![FILL; size.parse().expect("a size")]),
        }
    }
}

fn from(input: &Option<Vec<u8>>) -> (*const u8, usize) {
    input.as_ref().map_or((std::ptr::null(), 0), |bytes| (bytes.as_ptr(), bytes.len()))
}

// SAFETY, of each call below: a pointer and the size after it are those of one vector, or NULL and 0, and
// nothing else is borrowed of the buffer.

fn is_text(words: &mut Words) -> isize {
    let (text_class, mode, input) = (words.number(), words.number(), words.input());
    let (at, length) = from(&input);
    isize::from(unsafe { ufmt_is_text(text_class, mode, at, length) })
}

fn field(words: &mut Words, detail: &mut usize) -> isize {
    let (text_class, line, name) = (words.number(), words.input(), words.input());
    let ((line, length), (name, name_length)) = (from(&line), from(&name));
    unsafe { ufmt_field(text_class, line, length, name, name_length, detail) }
}

fn convert(to: *mut u8, size: usize, words: &mut Words, detail: &mut usize) -> isize {
    let (text_class, mode, input) = (words.number(), words.number(), words.input());
    let (at, length) = from(&input);
    unsafe { ufmt_convert(to, size, text_class, mode, at, length, detail) }
}

/// What a call returns that leaves a number, whose bytes it puts into the buffer.
fn parse(name: &str, left: &mut [u8; 8], words: &mut Words, detail: &mut usize) -> isize {
    let input = words.input();
    let (at, length) = from(&input);
    if name == "parse_signed" {
        let mut number = i64::from_le_bytes(*left);
        let result = unsafe { ufmt_parse_signed(&mut number, at, length, detail) };
        *left = number.to_le_bytes();
        return result;
    }
    if name == "parse_float" {
        let mut number = f64::from_le_bytes(*left);
        let result = unsafe { ufmt_parse_float(&mut number, at, length, detail) };
        *left = number.to_le_bytes();
        return result;
    }
    let mut number = u64::from_le_bytes(*left);
    let result = unsafe { ufmt_parse_unsigned(&mut number, at, length, detail) };
    *left = number.to_le_bytes();
    result
}

fn first_difference(words: &mut Words, detail: &mut usize) -> isize {
    let (given, stored) = (words.input(), words.input());
    let ((given, given_length), (stored, stored_length)) = (from(&given), from(&stored));
    unsafe { ufmt_first_difference(given, given_length, stored, stored_length, detail) }
}

fn on_number(call: OnNumber, to: *mut u8, size: usize, words: &mut Words, detail: &mut usize) -> isize {
    let number = words.number();
    let style = HexStyle { struct_size: words.number(), width: words.number(), pad: words.number(), upper_case: words.flag(), prefix: words.flag() };
    unsafe { call(to, size, number, &style, detail) }
}

fn on_bytes(name: &str, to: *mut u8, size: usize, words: &mut Words, detail: &mut usize) -> isize {
    let bytes = words.input();
    let (input, length) = from(&bytes);
    let call: OnBytes = match name {
        "quote" => ufmt_quote,
        "unquote" => ufmt_unquote,
        "unquote_debug" => ufmt_unquote_debug,
        "dump" => {
            let style = DumpStyle {
                struct_size: words.number(),
                per_row: words.number(),
                group: words.number(),
                first: words.number(),
                has_offsets: words.flag(),
                has_text: words.flag(),
            };
            return unsafe { ufmt_dump(to, size, input, length, &style, detail) };
        }
        "in_column" => {
            let style = ColumnStyle { struct_size: words.number(), width: words.number(), fill: words.number(), align: words.number() };
            return unsafe { ufmt_in_column(to, size, input, length, &style, detail) };
        }
        "difference" => {
            let stored = words.input();
            let (stored, stored_length) = from(&stored);
            return unsafe { ufmt_difference(to, size, input, length, stored, stored_length, detail) };
        }
        _ => panic!("no such call: {name}"),
    };
    unsafe { call(to, size, input, length, detail) }
}

/// What a call with a buffer returns.
fn written(name: &str, buffer: &mut Option<Vec<u8>>, words: &mut Words, detail: &mut usize) -> isize {
    let (to, size) = buffer.as_mut().map_or((std::ptr::null_mut(), 0), |bytes| (bytes.as_mut_ptr(), bytes.len()));
    match name {
        "unsigned" => unsafe { ufmt_unsigned(to, size, words.number(), detail) },
        "signed" => unsafe { ufmt_signed(to, size, words.number(), detail) },
        "float" => unsafe { ufmt_float(to, size, f64::from_bits(words.number()), detail) },
        "float_fixed" => {
            let number = f64::from_bits(words.number());
            unsafe { ufmt_float_fixed(to, size, number, words.number::<usize>(), detail) }
        }
        "hexadecimal" => on_number(ufmt_hexadecimal, to, size, words, detail),
        "binary" => on_number(ufmt_binary, to, size, words, detail),
        "convert" => convert(to, size, words, detail),
        _ => on_bytes(name, to, size, words, detail),
    }
}

fn main() -> io::Result<()> {
    let mut out = io::BufWriter::new(io::stdout());
    for line in io::stdin().lines() {
        let line = line?;
        let mut words = Words(line.split_whitespace());
        let name = words.word().to_string();
        let (mut detail, mut buffer) = (DETAIL, None);
        let result = match name.as_str() {
            "version" => (unsafe { ufmt_version() }) as isize,
            "is_text" => is_text(&mut words),
            "field" => field(&mut words, &mut detail),
            "parse_unsigned" | "parse_signed" | "parse_float" => {
                let mut left = [FILL; 8];
                let result = parse(&name, &mut left, &mut words, &mut detail);
                buffer = Some(left.to_vec());
                result
            }
            "first_difference" => first_difference(&mut words, &mut detail),
            _ => {
                buffer = words.buffer();
                written(&name, &mut buffer, &mut words, &mut detail)
            }
        };
        write!(out, "{result} {detail} ")?;
        for byte in buffer.unwrap_or_default() {
            write!(out, "{byte:02x}")?;
        }
        writeln!(out)?;
    }
    out.flush()
}
