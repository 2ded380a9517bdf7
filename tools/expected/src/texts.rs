//! Characters, texts and bytes.
use crate::rows::Rows;
use std::borrow::Cow;
use std::ffi::{CStr, CString};
use std::fmt::{Debug, Formatter, Result};
use std::rc::Rc;

/// Bytes that print as a byte string, as types of buffers do.
pub struct ByteString(pub &'static [u8]);

impl Debug for ByteString {
    fn fmt(&self, f: &mut Formatter) -> Result {
        write!(f, "b\"{}\"", self.0.escape_ascii())
    }
}

/// A byte that prints as a byte literal.
struct Byte(u8);

impl Debug for Byte {
    fn fmt(&self, f: &mut Formatter) -> Result {
        write!(f, "b'{}'", self.0.escape_ascii())
    }
}

pub fn add(rows: &mut Rows) {
    characters(rows);
    texts(rows);
    holders(rows);
    bytes(rows);
}

fn characters(rows: &mut Rows) {
    rows.add("char a", &'a');
    rows.add("char space", &' ');
    rows.add("char apostrophe", &'\'');
    rows.add("char quote", &'"');
    rows.add("char backslash", &'\\');
    rows.add("char nul", &'\0');
    rows.add("char tab", &'\t');
    rows.add("char line feed", &'\n');
    rows.add("char carriage return", &'\r');
    rows.add("char escape", &'\u{1b}');
    rows.add("char delete", &'\u{7f}');
    rows.add("char next line", &'\u{85}');
    rows.add("char no-break space", &'\u{a0}');
    rows.add("char combining accent", &'\u{301}');
    rows.add("char zero width space", &'\u{200b}');
    rows.add("char private use", &'\u{e000}');
    rows.add("char of two bytes", &'é');
    rows.add("char of three bytes", &'€');
    rows.add("char of four bytes", &'🦀');
}

fn texts(rows: &mut Rows) {
    rows.add("str empty", &"");
    rows.add("str of words", &"valve is open");
    rows.add("str of controls", &"\0\t\n\r\u{1}\u{1b}\u{7f}");
    rows.add("str of quotes", &"\"'\\");
    rows.add("str of brackets", &"[]{}(),: ..");
    rows.add("str with a combining accent first", &"\u{301}a");
    rows.add("str with a combining accent later", &"e\u{301}");
    rows.add("str with a zero width space", &"a\u{200b}b");
    rows.add("str with a mark of direction", &"a\u{202e}b");
    rows.add("str past ASCII", &"é€🦀 日本");
    rows.add("str of lines", &"first\nsecond\n");
    rows.add("str of a printed value", &"Some(\"a\")");
}

fn holders(rows: &mut Rows) {
    rows.add("String", &String::from("a text"));
    rows.add("Cow borrowed", &Cow::Borrowed("a"));
    rows.add("Cow owned", &Cow::<str>::Owned("b".to_string()));
    rows.add("Cow of a slice", &Cow::Borrowed(&[1_u8, 2][..]));
    rows.add("Box of a str", &Box::<str>::from("c"));
    rows.add("Rc of a str", &Rc::<str>::from("d"));
    rows.add("Chars", &"ab'".chars());
    rows.add("CharIndices", &"é ".char_indices());
    rows.add("Bytes", &"ab".bytes());
    rows.add("str::Lines", &"a\nb".lines());
    rows.add("str::SplitWhitespace", &"a b".split_whitespace());
}

fn bytes(rows: &mut Rows) {
    rows.add("bytes", &b"ab\0");
    rows.add("byte string", &ByteString(b"ab\0\n\xff\"'\\ c"));
    rows.add("byte string, empty", &ByteString(b""));
    rows.add("byte strings in a list", &[ByteString(b"GET /"), ByteString(b"\x1b[0m")]);
    rows.add("byte literal", &Byte(b'\''));
    rows.add("slice::EscapeAscii", &b"a\0".escape_ascii());
    rows.add("CString", &CString::new("a b").unwrap());
    rows.add("CStr past ASCII", &CStr::from_bytes_with_nul(b"\xff\"\0").unwrap());
}
