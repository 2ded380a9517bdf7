//! Worked rows as a program for Linux on 32 bits, without a C library: it ends with status 0, or says what is wanted of the first row
//! that is wrong.
#![no_std]
use core::arch::{asm, global_asm};
use core::cell::Cell;
use core::ops::Bound;
use ufmt::{
    Align, Column, Cursor, Decimal, Full, HexDump, HexOptions, debug_cut_into, debug_into, fields, hex_dump_into, line_into, pieces, pretty_into, uDebug,
    Formatter, uWrite, variants,
};

global_asm!(".globl _start", "_start:", "and esp, -16", "call rows", "ud2");

fn exit(status: i32) -> ! {
    unsafe { asm!("mov ebx, {0:e}", "int 0x80", in(reg) status, in("eax") 1, options(noreturn)) }
}

fn say(text: &str) {
    // SAFETY: the call reads the text only.
    unsafe {
        asm!("push ebx", "mov ebx, 1", "int 0x80", "pop ebx", inout("eax") 4 => _, in("ecx") text.as_ptr(), in("edx") text.len());
    }
}

#[panic_handler]
fn stop(_: &core::panic::PanicInfo) -> ! {
    exit(255)
}

struct Pair {
    x: i32,
    y: i32,
}

struct Nested(Pair, Option<Pair>);

enum Choice {
    A,
    B(u8, i64),
    C { x: usize, y: isize },
}

macro_rules! prints {
    ($($type:ty: $call:ident($($form:tt)*);)*) => {
        $(impl uDebug for $type {
            fn fmt<W: uWrite>(&self, f: &mut Formatter<W>) -> Result<(), W::Error> {
                $call!(f, self, $($form)*)
            }
        })*
    };
}

prints! {
    Pair: fields(Pair { x, y });
    Nested: fields(Nested(first, second));
    Choice: variants(Choice { A, B(x, y), C { x, y } });
}

fn check(outcome: Result<usize, Full>, buffer: &[u8], wanted: &str) {
    if outcome.ok().and_then(|length| buffer.get(..length)) != Some(wanted.as_bytes()) {
        say(wanted);
        exit(1);
    }
}

macro_rules! plain {
    ($($value:expr => $wanted:expr;)*) => {
        $({
            let mut buffer = [0; 256];
            let outcome = debug_into(&mut buffer, &$value);
            check(outcome, &buffer, $wanted);
        })*
    };
}

macro_rules! pretty {
    ($($value:expr => $wanted:expr;)*) => {
        $({
            let mut buffer = [0; 256];
            let outcome = pretty_into(&mut buffer, &$value);
            check(outcome, &buffer, $wanted);
        })*
    };
}

macro_rules! row {
    ($(($($piece:tt)*) => $wanted:expr;)*) => {
        $({
            let mut buffer = [0; 512];
            let outcome = line_into(&mut buffer, &pieces!($($piece)*));
            check(outcome, &buffer, $wanted);
        })*
    };
}

const ADDRESS: HexOptions = HexOptions { upper_case: false, pad_char: b'0', pad_length: 10, ox_prefix: true };
const HUGE: HexOptions = HexOptions { pad_length: usize::MAX, ..ADDRESS };
const RIGHT: Column = Column { width: 7, align: Align::Right, fill: '.' };
const FAR: Column = Column { width: usize::MAX, ..RIGHT };

fn numbers() {
    plain! {
        0u8 => "0";
        u16::MAX => "65535";
        u32::MAX => "4294967295";
        u64::MAX => "18446744073709551615";
        u128::MAX => "340282366920938463463374607431768211455";
        usize::MAX => "4294967295";
        i8::MIN => "-128";
        i32::MIN => "-2147483648";
        i64::MIN => "-9223372036854775808";
        i128::MIN => "-170141183460469231731687303715884105728";
        isize::MIN => "-2147483648";
        1.5f64 => "1.5";
        f64::MAX => "1.7976931348623157e308";
        f64::MIN_POSITIVE => "2.2250738585072014e-308";
        5e-324f64 => "5e-324";
        -0.0f32 => "-0.0";
        f32::MAX => "3.4028235e38";
        0.1f32 => "0.1";
        f64::NAN => "NaN";
        f64::NEG_INFINITY => "-inf";
    }
}

fn values() {
    plain! {
        (1, "a\"b\n€", 'x', true) => "(1, \"a\\\"b\\n€\", 'x', true)";
        [Some(1u8), None] => "[Some(1), None]";
        Ok::<u8, ()>(7) => "Ok(7)";
        0..=9u16 => "0..=9";
        Bound::Excluded(3) => "Excluded(3)";
        Nested(Pair { x: 1, y: -2 }, None) => "Nested(Pair { x: 1, y: -2 }, None)";
        Choice::A => "A";
        Choice::B(1, -1) => "B(1, -1)";
        Choice::C { x: usize::MAX, y: isize::MIN } => "C { x: 4294967295, y: -2147483648 }";
        ufmt::cells::CellValue::of(&Cell::new(4)) => "Cell { value: 4 }";
    }
    pretty! {
        Pair { x: 1, y: -2 } => "Pair {\n    x: 1,\n    y: -2,\n}";
        Nested(Pair { x: 1, y: 2 }, Some(Pair { x: 3, y: 4 })) => "Nested(\n    Pair {\n        x: 1,\n        y: 2,\n    },\n    Some(\n        Pair {\n            x: 3,\n            y: 4,\n        },\n    ),\n)";
        [0u8; 0] => "[]";
    }
}

fn lines() {
    row! {
        (text "x=", debug 1, text " y=", display "é") => "x=1 y=é";
        (hex 0x1234 with ADDRESS) => "0x00001234";
        (hex (usize::MAX) with ADDRESS) => "0xffffffff";
        (bin 5u8 with ADDRESS) => "0b00000101";
        (fixed 2.5f64 to 2, text " ", fixed 0.1f64 to 20) => "2.50 0.10000000000000000555";
        (zeros (-7) to 5) => "-0007";
        (display (Decimal { value: -125, places: 2 })) => "-1.25";
        (debug 42 in RIGHT, text "|") => ".....42|";
        (each debug [1, 2, 3] between ", ") => "1, 2, 3";
    }
}

// Options that no buffer has room for, as far as `usize` goes: the buffer is full, and no sum overflows.
fn large_options() {
    let mut buffer = [0; 16];
    for outcome in [
        line_into(&mut buffer, &pieces!(hex 1 with HUGE)),
        line_into(&mut buffer, &pieces!(debug 1 in FAR)),
        line_into(&mut buffer, &pieces!(zeros 1 to usize::MAX)),
        line_into(&mut buffer, &pieces!(fixed 2.5f64 to usize::MAX)),
    ] {
        check(outcome.or(Ok(0)), &[], "");
        if outcome.is_ok() {
            exit(254);
        }
    }
    let dump = HexDump { per_row: usize::MAX, group: usize::MAX, offset: Some(u32::MAX), ascii: true };
    let mut room = [0; 256];
    if hex_dump_into(&mut room, b"abc", &dump) == Ok(0) {
        exit(253);
    }
}

fn sizes_of_buffers() {
    let value = Nested(Pair { x: 1, y: -2 }, Some(Pair { x: i32::MIN, y: 0 }));
    let mut whole = [0; 128];
    let length = debug_into(&mut whole, &value).unwrap_or(0);
    let mut buffer = [0; 128];
    for size in 0..=length {
        let Some(front) = buffer.get_mut(..size) else { exit(252) };
        let cut = debug_cut_into(front, &value);
        if cut.length != size || cut.is_whole != (size == length) || Some(&*front) != whole.get(..size) {
            exit(251);
        }
        let mut cursor = Cursor::new(front);
        if ufmt::write_debug(&mut cursor, &value).is_ok() != (size == length) {
            exit(250);
        }
    }
}

#[unsafe(no_mangle)]
extern "C" fn rows() -> ! {
    numbers();
    values();
    lines();
    large_options();
    sizes_of_buffers();
    exit(0)
}
