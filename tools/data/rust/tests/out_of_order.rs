//! What contracts of the sources ask for, and Rust checks only here: calls of builders out of order, and options of every kind.
//! No call panics, and each writes what its page says.
use std::panic::catch_unwind;
use ufmt::{Formatter, HexOptions, Line, Radix, pieces, uDebug, uDisplayHex, uDisplayRadix, uWrite};

/// Makes calls by their numbers, in every order of this many.
fn in_each_order(calls: u32, count: u32, make: impl Fn(&mut dyn Iterator<Item = u32>)) {
    for order in 0..calls.pow(count) {
        make(&mut (0..count).map(|place| order / calls.pow(place) % calls));
    }
}

#[test]
fn lists_and_sets_take_calls_in_each_order() {
    in_each_order(6, 4, |order| {
        let (mut text, mut f) = (String::new(), String::new());
        {
            let mut list_formatter = Formatter::new(&mut text);
            let mut list = list_formatter.debug_list().unwrap();
            let mut set_formatter = Formatter::new(&mut f);
            let mut set = set_formatter.debug_set().unwrap();
            for call in order {
                let was_open = list.is_open();
                match call {
                    0 => list.entry(&1).and(set.entry(&1)).unwrap(),
                    1 => list.entries([2, 3]).and(set.entries([2, 3])).unwrap(),
                    2 => 4.fmt(list.begin_entry().unwrap()).and(4.fmt(set.begin_entry().unwrap())).unwrap(),
                    3 => list.end_entry(Ok(())).and(set.end_entry(Ok(()))).unwrap(),
                    4 => list.finish().and(set.finish()).unwrap(),
                    _ => assert_eq!(list.is_open(), set.is_open()),
                }
                assert!(call != 4 || !list.is_open());
                assert!(was_open || call == 3 || !list.is_open());
            }
        }
        assert_eq!(text.replace(['[', ']'], ""), f.replace(['{', '}'], ""));
    });
}

#[test]
fn maps_take_calls_in_each_order() {
    in_each_order(7, 4, |order| {
        let mut text = String::new();
        let mut f = Formatter::new(&mut text);
        let mut map = f.debug_map().unwrap();
        for call in order {
            match call {
                0 => map.entry(&1, &2).unwrap(),
                1 => map.entries([(3, 4)]).unwrap(),
                2 => 5.fmt(map.begin_entry().unwrap()).unwrap(),
                3 => 6.fmt(map.begin_value(Ok(())).unwrap()).unwrap(),
                4 => map.end_entry(Ok(())).unwrap(),
                5 => map.finish().unwrap(),
                _ => _ = map.is_open(),
            }
        }
    });
}

#[test]
fn structs_and_tuples_take_calls_in_each_order() {
    in_each_order(6, 4, |order| {
        let (mut text, mut other) = (String::new(), String::new());
        let mut f = Formatter::new(&mut text);
        let mut built = f.debug_struct("S").unwrap();
        let mut g = Formatter::new(&mut other);
        let mut tuple = g.debug_tuple("T").unwrap();
        for call in order {
            match call {
                0 => built.field("a", &1).and(tuple.field(&1)).unwrap(),
                1 => 2.fmt(built.begin_field("b").unwrap()).and(2.fmt(tuple.begin_field().unwrap())).unwrap(),
                2 => built.end_field(Ok(())).and(tuple.end_field(Ok(()))).unwrap(),
                3 => built.finish().and(tuple.finish()).unwrap(),
                4 => built.finish_non_exhaustive().unwrap(),
                _ => _ = (built.is_open(), tuple.is_open()),
            }
        }
    });
}

#[test]
fn a_closed_builder_writes_nothing() {
    let mut text = String::new();
    let mut f = Formatter::new(&mut text);
    let mut list = f.debug_list().unwrap();
    list.entry(&1).unwrap();
    list.finish().unwrap();
    list.finish().unwrap();
    list.entry(&2).unwrap();
    list.entries([3]).unwrap();
    list.end_entry(Ok(())).unwrap();
    f.write_str(";").unwrap();
    let mut built = f.debug_struct("S").unwrap();
    built.finish_non_exhaustive().unwrap();
    built.field("a", &1).unwrap();
    built.finish().unwrap();
    assert_eq!(text, "[1]; S { .. }".replace("; ", ";"));
}

#[test]
fn a_failure_is_passed_on_out_of_order() {
    let mut text = String::new();
    let mut f = Formatter::new(&mut text);
    let mut map = f.debug_map().unwrap();
    map.finish().unwrap();
    let refused = || String::new().try_reserve(usize::MAX);
    assert!(map.end_entry(refused()).is_err());
    assert!(map.begin_value(refused()).is_err());
    assert!(map.begin_value(Ok(())).is_ok());
    assert_eq!(text, "{}");
}

#[test]
fn finish_between_the_halves_of_an_entry_restores_mode_and_depth() {
    let mut text = String::new();
    let mut f = Formatter::new(&mut text);
    f.pretty(|f| {
        let mut list = f.debug_list()?;
        1.fmt(list.begin_entry()?)?;
        list.finish()?;
        assert!(f.is_pretty());
        assert_eq!(f.depth(), 0);
        Ok(())
    })
    .unwrap();
    assert_eq!(text, "[\n    1");
}

#[test]
fn pad_bytes_past_ascii_are_question_marks() {
    for pad_char in 0..=255u8 {
        let options = HexOptions { upper_case: false, pad_char, pad_length: 5, ox_prefix: true };
        let wanted = match pad_char {
            b' ' => String::from("  0xa"),
            0..=127 => format!("0x{0}{0}a", char::from(pad_char)),
            _ => String::from("0x??a"),
        };
        let print = |print: &dyn Fn(&mut Formatter<&mut String>)| {
            let mut text = String::new();
            print(&mut Formatter::new(&mut text));
            text
        };
        assert_eq!(print(&|f| 10.fmt_hex(f, options).unwrap()), wanted);
        assert_eq!(print(&|f| 10.fmt_radix(f, Radix::Hexadecimal, options).unwrap()), wanted);
        assert_eq!(print(&|f| options.with_stuff(f, "a").unwrap()), wanted);
        assert_eq!(print(&|f| pieces!(hex 10 with options).print(f).unwrap()), wanted);
        let column = ufmt::Column { width: 7, align: ufmt::Align::Right, fill: '.' };
        assert_eq!(print(&|f| pieces!(hex 10 with options in column).print(f).unwrap()), format!("..{wanted}"));
    }
}

#[test]
fn escapes_take_any_quote() {
    for byte in 0..=255u8 {
        for quote in 0..=255u8 {
            let escape = ufmt_core::internal::escape(byte, quote);
            assert!(escape.is_none() || byte < 0x80);
        }
    }
}

#[test]
fn nothing_panics_for_large_options() {
    let outcome = catch_unwind(|| {
        let mut buffer = [0; 16];
        for size in [0, 1, 64, usize::MAX - 1, usize::MAX] {
            let column = ufmt::Column { width: size, align: ufmt::Align::Center, fill: ' ' };
            let _ = ufmt::line_into(&mut buffer, &pieces!(debug 1 in column));
            let _ = ufmt::line_into(&mut buffer, &pieces!(fixed 2.5 to size, zeros 1 to size));
            let dump = ufmt::HexDump { per_row: size, group: size, offset: Some(u32::MAX), ascii: true };
            let _ = ufmt::hex_dump_into(&mut buffer, b"abc", &dump);
            let mut writer = ufmt::Truncating::new(&mut buffer);
            let _ = writer.write_str("€€€€€€€");
            let _ = writer.write_char('€');
        }
    });
    assert!(outcome.is_ok());
}
