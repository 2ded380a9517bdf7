//! Fixed texts, and what core::fmt prints of the same values.
mod types;

use std::collections::{BTreeMap, BTreeSet};
use std::fmt::Debug;
use types::{Braces, Choice, I32, Nested, Node, Pair, Parens, Tuple};
use ufmt::{Cursor, Formatter, Full, HexOptions, debug_into, plain_text, pretty_into, pretty_text, uDebug, uDisplay, uDisplayHex, uwrite};

// Both texts of a value are these, and those of core::fmt.
fn row<T: uDebug + Debug>(value: T, plain: &str, pretty: &str) {
    assert_eq!(plain_text(&value).unwrap(), plain);
    assert_eq!(pretty_text(&value).unwrap(), pretty);
    assert_eq!(format!("{value:?}"), plain);
    assert_eq!(format!("{value:#?}"), pretty);
}

// Both traits print this number so, in both modes.
fn number<T: uDebug + uDisplay + Debug>(value: T, text: &str) {
    row(&value, text, text);
    let mut buffer = [0; 64];
    let length = ufmt::display_into(&mut buffer, &value).unwrap();
    assert_eq!(&buffer[..length], text.as_bytes());
}

#[test]
fn values_of_core_have_their_texts() {
    row(None::<u8>, "None", "None");
    row(Some(0), "Some(0)", "Some(\n    0,\n)");
    row(Ok::<u8, u8>(1), "Ok(1)", "Ok(\n    1,\n)");
    row(Err::<u8, u8>(2), "Err(2)", "Err(\n    2,\n)");
    row((), "()", "()");
    row((1,), "(1,)", "(\n    1,\n)");
    row((1, 2), "(1, 2)", "(\n    1,\n    2,\n)");
    row([[].as_slice(), &[1u8]], "[[], [1]]", "[\n    [],\n    [\n        1,\n    ],\n]");
    let twelve = (1, 2, 3, 4, 5, 6, 7, 8, 9, 10, 11, 12);
    assert_eq!(plain_text(&twelve).unwrap(), "(1, 2, 3, 4, 5, 6, 7, 8, 9, 10, 11, 12)");
    row("a\"b\n", "\"a\\\"b\\n\"", "\"a\\\"b\\n\"");
    row('"', "'\"'", "'\"'");
    row('\'', "'\\''", "'\\''");
    row("'\u{7f}", "\"'\\u{7f}\"", "\"'\\u{7f}\"");
}

#[test]
fn numbers_have_their_texts() {
    for (n, text) in [(0u8, "0"), (10, "10"), (100, "100"), (255, "255")] {
        number(n, text);
    }
    number(u16::MAX, "65535");
    number(u32::MAX, "4294967295");
    number(u64::MAX, "18446744073709551615");
    number(u128::MAX, "340282366920938463463374607431768211455");
    number(usize::MAX, &format!("{}", usize::MAX));
    number(i8::MIN, "-128");
    number(i16::MIN, "-32768");
    number(i32::MIN, "-2147483648");
    number(i64::MIN, "-9223372036854775808");
    number(i128::MIN, "-170141183460469231731687303715884105728");
    number(isize::MIN, &format!("{}", isize::MIN));
    for shift in 0..128 {
        for less in [0, 1] {
            let n = (1u128 << shift) - less;
            number(n, &format!("{n}"));
            number(n as i128, &format!("{}", n as i128));
            number(n as u64, &format!("{}", n as u64));
            number(n as i64, &format!("{}", n as i64));
            number(n as i32, &format!("{}", n as i32));
            number(n as u16, &format!("{}", n as u16));
            number(n as i8, &format!("{}", n as i8));
        }
    }
}

#[test]
fn types_of_a_user_have_their_texts() {
    let pair = Pair { x: 0, y: 0 };
    row(Braces {}, "Braces", "Braces");
    assert_eq!(plain_text(&Parens()).unwrap(), "Parens");
    row(I32(0), "I32(0)", "I32(\n    0,\n)");
    row(Tuple(0, 0), "Tuple(0, 0)", "Tuple(\n    0,\n    0,\n)");
    row(pair, "Pair { x: 0, y: 0 }", "Pair {\n    x: 0,\n    y: 0,\n}");
    row(
        Nested { first: pair, second: pair },
        "Nested { first: Pair { x: 0, y: 0 }, second: Pair { x: 0, y: 0 } }",
        "Nested {\n    first: Pair {\n        x: 0,\n        y: 0,\n    },\n    second: Pair {\n        x: 0,\n        y: 0,\n    },\n}",
    );
    row(Choice::A, "A", "A");
    row(Choice::B(0, 1), "B(0, 1)", "B(\n    0,\n    1,\n)");
    row(Choice::C { x: 0, y: 1 }, "C { x: 0, y: 1 }", "C {\n    x: 0,\n    y: 1,\n}");
    let inner = Node { value: 0, next: None };
    row(
        Node { value: 1, next: Some(Box::new(inner)) },
        "Node { value: 1, next: Some(Node { value: 0, next: None }) }",
        "Node {\n    value: 1,\n    next: Some(\n        Node {\n            value: 0,\n            next: None,\n        },\n    ),\n}",
    );
}

#[test]
fn collections_have_their_texts() {
    row(BTreeMap::<u8, u8>::new(), "{}", "{}");
    row(BTreeMap::from([(1, 2), (3, 4)]), "{1: 2, 3: 4}", "{\n    1: 2,\n    3: 4,\n}");
    row(BTreeSet::<u8>::new(), "{}", "{}");
    row(BTreeSet::from([1, 3]), "{1, 3}", "{\n    1,\n    3,\n}");
    row(Vec::<u8>::new(), "[]", "[]");
    row(vec![0, 1], "[0, 1]", "[\n    0,\n    1,\n]");
    row(std::collections::VecDeque::from([0, 1]), "[0, 1]", "[\n    0,\n    1,\n]");
    row(std::collections::LinkedList::from([0, 1]), "[0, 1]", "[\n    0,\n    1,\n]");
    row(std::collections::HashMap::from([("a", 1)]), "{\"a\": 1}", "{\n    \"a\": 1,\n}");
    row(std::collections::HashSet::from(["a"]), "{\"a\"}", "{\n    \"a\",\n}");
    row(std::rc::Rc::new(1), "1", "1");
    row(std::sync::Arc::<str>::from("a"), "\"a\"", "\"a\"");
    row(Box::<[u8]>::from([1]), "[1]", "[\n    1,\n]");
    row(std::borrow::Cow::Borrowed("a"), "\"a\"", "\"a\"");
    row(1..=3, "1..=3", "1..=3");
    row(std::num::NonZeroU8::MIN, "1", "1");
}

// The text of a number by these options: prefix, pad byte, length, upper case.
fn hex<T: uDisplayHex>(value: T, ox_prefix: bool, pad_char: u8, pad_length: usize, upper_case: bool) -> String {
    let mut text = String::new();
    let options = HexOptions { upper_case, pad_char, pad_length, ox_prefix };
    value.fmt_hex(&mut Formatter::new(&mut text), options).unwrap();
    text
}

#[test]
fn hexadecimal_numbers_have_their_texts() {
    assert_eq!(hex(771, false, b' ', 0, false), "303");
    assert_eq!(hex(-10000i32, false, b' ', 0, false), "ffffd8f0");
    assert_eq!(hex(33, false, b' ', 4, false), "  21");
    assert_eq!(hex(89001, false, b' ', 4, false), "15ba9");
    assert_eq!(hex(33, false, b'0', 4, false), "0021");
    assert_eq!(hex(33, true, b'0', 3, false), "0x21");
    assert_eq!(hex(33, true, b'0', 9, false), "0x0000021");
    assert_eq!(hex(33, true, b' ', 6, false), "  0x21");
    assert_eq!(hex(71, true, b' ', 0, false), "0x47");
    assert_eq!(hex(33, true, b'0', 0, true), "0X21");
    assert_eq!(hex(171u8, false, b'0', 4, true), "00AB");
    assert_eq!(hex(i8::MIN, false, b' ', 0, false), "80");
    assert_eq!(hex(i128::MAX, false, b' ', 0, false), format!("7{}", "f".repeat(31)));
}

#[test]
fn an_address_has_the_text_of_core_fmt() {
    for (n, text) in [(0, "0x00000000"), (0x1234, "0x00001234"), (u32::MAX, "0xffffffff")] {
        assert_eq!(format!("{n:#010x}"), text);
        assert_eq!(hex(n, true, b'0', 10, false), text);
    }
}

#[test]
fn text_that_is_too_long_for_a_buffer_is_a_prefix() {
    let pair = Pair { x: 1, y: 2 };
    let mut cursor = Cursor::new(&mut []);
    assert_eq!(ufmt::write_debug(&mut cursor, &pair), Err(Full));
    let mut buffer = [0; 8];
    let mut cursor = Cursor::new(&mut buffer);
    assert_eq!(ufmt::write_debug(&mut cursor, &pair), Err(Full));
    assert_eq!(cursor.written(), b"Pair { x");
    let mut buffer = [0; 19];
    let mut cursor = Cursor::new(&mut buffer);
    assert_eq!(ufmt::write_debug(&mut cursor, &pair), Ok(()));
    assert_eq!((cursor.written(), cursor.remaining()), (b"Pair { x: 1, y: 2 }".as_slice(), 0));
    let mut buffer = [0; 8];
    let mut f = Formatter::new(Cursor::new(&mut buffer));
    let options = HexOptions { upper_case: false, pad_char: b'0', pad_length: usize::MAX, ox_prefix: false };
    assert_eq!(33.fmt_hex(&mut f, options), Err(Full));
    assert_eq!(f.into_inner().written(), b"00000000");
}

#[test]
fn cursors_of_every_size_have_a_prefix_and_no_more() {
    let value = Nested { first: Pair { x: -1, y: 22 }, second: Pair { x: 333, y: i32::MIN } };
    for (text, print) in [
        (format!("{value:?}"), debug_into as fn(&mut [u8], &Nested) -> Result<usize, Full>),
        (format!("{value:#?}"), pretty_into),
    ] {
        for size in 0..text.len() + 3 {
            let mut buffer = vec![b'~'; size];
            let outcome = print(&mut buffer, &value);
            if size < text.len() {
                assert_eq!(outcome, Err(Full));
                let front = buffer.iter().take_while(|byte| **byte != b'~').count();
                assert!(text.as_bytes().starts_with(&buffer[..front]));
                assert!(buffer[front..].iter().all(|byte| *byte == b'~'));
            } else {
                assert_eq!(outcome, Ok(text.len()));
                assert_eq!(&buffer[..text.len()], text.as_bytes());
                assert!(buffer[text.len()..].iter().all(|byte| *byte == b'~'));
            }
        }
    }
}

mod foreign {
    //! Other things have the names of the prelude here.
    use super::types::Pair;
    use ufmt::{Formatter, uWrite, uwrite, uwriteln};

    #[allow(dead_code)]
    pub enum Choice {
        Ok,
        Err,
    }
    #[allow(unused_imports)]
    use Choice::{Err, Ok};
    #[allow(dead_code)]
    struct Result;

    pub fn write<W: uWrite>(f: &mut Formatter<W>) -> std::result::Result<(), W::Error> {
        uwriteln!(f, text "The answer is ", display 42i32)?;
        uwrite!(f, debug Pair { x: 1, y: 2 })
    }
}

#[test]
fn macros_work_where_ok_and_err_are_other_things() {
    let mut text = String::new();
    foreign::write(&mut Formatter::new(&mut text)).unwrap();
    assert_eq!(text, "The answer is 42\nPair { x: 1, y: 2 }");
}

#[test]
fn a_line_of_pieces_has_its_text() {
    let options = HexOptions { upper_case: false, pad_char: b'0', pad_length: 6, ox_prefix: true };
    let mut text = String::new();
    let mut f = Formatter::new(&mut text);
    uwrite!(&mut f, text "n=", display 7, debug (1,), pretty Some(2), hex 255u8 with options).unwrap();
    assert_eq!(text, "n=7(1,)Some(\n    2,\n)0x00ff");
    let line = ufmt::pieces!(text "a ", debug 1, text " ", fixed 2.5 to 2, text " ", zeros 7 to 3, text " ", bin 5 with options);
    let mut buffer = [0; 64];
    let length = ufmt::line_into(&mut buffer, &line).unwrap();
    assert_eq!(&buffer[..length], b"a 1 2.50 007 0b0101");
}

#[test]
fn each_character_has_its_bytes() {
    for character in '\0'..=char::MAX {
        let (mut buffer, mut bytes) = ([0; 4], [0; 4]);
        let mut cursor = Cursor::new(&mut buffer);
        ufmt::uWrite::write_char(&mut cursor, character).unwrap();
        assert_eq!(cursor.written(), character.encode_utf8(&mut bytes).as_bytes());
        let mut cut = ufmt::Truncating::new(&mut buffer);
        ufmt::uWrite::write_char(&mut cut, character).unwrap();
        assert_eq!(cut.written(), character.encode_utf8(&mut bytes).as_bytes());
    }
}
