//! Writers that refuse a piece: each call passes the error on, nothing more is written, and mode and depth are as before.
mod types;

use types::{Choice, Nested, Node, Pair, Tuple};
use ufmt::{Cursor, Formatter, Full, HexOptions, Radix, fmt_pretty, pieces, uDebug, uDisplay, uDisplayFixed, uDisplayHex, uDisplayRadix, uDisplayZeros, uWrite};

/// Takes this many pieces, and refuses all after them. Empty ones are always taken, and don't count.
struct FailAt {
    text: String,
    pieces: usize,
    left: usize,
}

#[derive(Debug, PartialEq)]
struct Refused;

impl uWrite for FailAt {
    type Error = Refused;

    fn write_str(&mut self, s: &str) -> Result<(), Refused> {
        if s.is_empty() {
            return Ok(());
        }
        if self.left == 0 {
            return Err(Refused);
        }
        self.left -= 1;
        self.pieces += 1;
        self.text.push_str(s);
        Ok(())
    }
}

fn writer(left: usize) -> FailAt {
    FailAt { text: String::new(), pieces: 0, left }
}

/// Refuses each piece in turn of what this call writes.
fn each_piece_refused(print: impl Fn(&mut Formatter<FailAt>) -> Result<(), Refused>) {
    let mut f = Formatter::new(writer(usize::MAX));
    print(&mut f).unwrap();
    let whole = f.into_inner();
    for left in 0..whole.pieces {
        let mut f = Formatter::new(writer(left));
        assert_eq!(print(&mut f), Err(Refused));
        assert!(!f.is_pretty());
        assert_eq!(f.depth(), 0);
        let part = f.into_inner();
        assert_eq!(part.pieces, left);
        assert!(whole.text.starts_with(&part.text));
    }
}

fn each_piece_of_a_value<T: uDebug>(value: T) {
    each_piece_refused(|f| value.fmt(f));
    each_piece_refused(|f| fmt_pretty(&value, f));
}

#[test]
fn values_pass_the_error_on() {
    let pair = Pair { x: 1, y: -2 };
    each_piece_of_a_value(pair);
    each_piece_of_a_value(Nested { first: pair, second: pair });
    each_piece_of_a_value(Tuple(1, 2));
    each_piece_of_a_value(Choice::C { x: 1, y: 2 });
    each_piece_of_a_value(Node { value: 1, next: Some(Box::new(Node { value: 2, next: None })) });
    each_piece_of_a_value([Some((1,)), None]);
    each_piece_of_a_value(std::collections::BTreeMap::from([(1, "a\nb"), (2, "")]));
    each_piece_of_a_value(std::collections::BTreeSet::from(['a', '\n']));
    each_piece_of_a_value((1.5f64, 1..2, Ok::<u8, ()>(3)));
}

#[test]
fn pieces_pass_the_error_on() {
    let options = HexOptions { upper_case: true, pad_char: b'*', pad_length: 9, ox_prefix: true };
    each_piece_refused(|f| 77.fmt_hex(f, options));
    each_piece_refused(|f| 77.fmt_radix(f, Radix::Binary, options));
    each_piece_refused(|f| 77.fmt_zeros(f, 9));
    each_piece_refused(|f| 0.1f64.fmt_fixed(f, 300));
    each_piece_refused(|f| uDisplay::fmt(&"text", f));
    let column = ufmt::Column { width: 9, align: ufmt::Align::Center, fill: '·' };
    let line = pieces!(text "a", debug (1, 2) in column, hex 5 with options, each debug [1, 2] between ", ");
    each_piece_refused(|f| ufmt::Line::print(&line, f));
}

#[test]
fn each_size_of_a_cursor_takes_a_prefix() {
    let value = Nested { first: Pair { x: 1, y: 2 }, second: Pair { x: 3, y: 4 } };
    let whole = format!("{value:?}");
    for size in 0..=whole.len() {
        let mut buffer = vec![0; size];
        let mut f = Formatter::new(Cursor::new(&mut buffer));
        assert_eq!(value.fmt(&mut f), if size < whole.len() { Err(Full) } else { Ok(()) });
        let cursor = f.into_inner();
        assert!(whole.as_bytes().starts_with(cursor.written()));
        let cut = ufmt::debug_cut_into(&mut vec![0; size], &value);
        assert_eq!((cut.length, cut.is_whole), (size, size == whole.len()));
    }
}

#[test]
fn a_device_may_say_that_it_wrote_more_than_it_was_given() {
    struct Liar;
    impl std::io::Write for Liar {
        fn write(&mut self, bytes: &[u8]) -> std::io::Result<usize> {
            Ok(bytes.len() + usize::MAX / 2)
        }

        fn flush(&mut self) -> std::io::Result<()> {
            Ok(())
        }
    }
    let mut device = ufmt::Device::new(Liar);
    assert!(device.write_str("abc").is_ok());
    let mut device = ufmt::Device::new(Vec::new());
    ufmt::write_debug(&mut device, &Some(1)).unwrap();
    assert_eq!(device.into_inner(), b"Some(1)");
}
