//! Each call of `ufmt` as a function of its own, which a program may have alone. `x try rust` finds no
//! symbol of `core::panicking` in it.
#![no_std]
use core::cell::{Cell, RefCell};
use core::cmp::{Ordering, Reverse};
use core::num::{NonZeroI64, NonZeroU8, Saturating, Wrapping};
use core::ops::{Bound, ControlFlow};
use ufmt::cells::{CellValue, RefCellValue};
use ufmt::{
    Align, Column, Cursor, Decimal, Fixed, Formatter, Full, HexDump, HexOptions, Radix, Truncating, fields, pieces, uDebug, uDisplay, uDisplayFixed, uDisplayHex,
    uDisplayRadix, uDisplayZeros, uWrite, uwriteln, variants,
};

#[panic_handler]
fn stop(_: &core::panic::PanicInfo) -> ! {
    loop {}
}

struct Pair {
    x: i32,
    y: i32,
}

struct Tuple(u8, i64);

enum Event {
    Started,
    Said(u8, i32),
    Lost { since: u32, peers: u8 },
}

impl uDebug for Pair {
    fn fmt<W: uWrite>(&self, f: &mut Formatter<W>) -> Result<(), W::Error> {
        fields!(f, self, Pair { x, y })
    }
}

impl uDebug for Tuple {
    fn fmt<W: uWrite>(&self, f: &mut Formatter<W>) -> Result<(), W::Error> {
        fields!(f, self, Tuple(a, b))
    }
}

impl uDebug for Event {
    fn fmt<W: uWrite>(&self, f: &mut Formatter<W>) -> Result<(), W::Error> {
        variants!(f, self, Event { Started, Said(a, b), Lost { since, peers } })
    }
}

type Printer<'f, 'b> = &'f mut Formatter<Cursor<'b>>;
type Printed = Result<(), Full>;

/// What is printed: numbers, and a text with any bytes.
#[derive(Clone, Copy)]
pub struct Given<'a> {
    n: i64,
    wide: u128,
    float: f64,
    size: usize,
    text: &'a str,
}

impl Given<'_> {
    fn options(&self) -> HexOptions {
        HexOptions { upper_case: self.n < 0, pad_char: self.n as u8, pad_length: self.size, ox_prefix: self.wide > 7 }
    }

    fn column(&self) -> Column {
        let align = match self.n % 3 {
            0 => Align::Left,
            1 => Align::Center,
            _ => Align::Right,
        };
        Column { width: self.size, align, fill: if self.n > 9 { ' ' } else { '€' } }
    }
}

fn debug<T: uDebug>(f: Printer, value: T) -> Printed {
    value.fmt(f)
}

fn pretty<T: uDebug>(f: Printer, value: T) -> Printed {
    ufmt::fmt_pretty(&value, f)
}

fn display<T: uDisplay>(f: Printer, value: T) -> Printed {
    value.fmt(f)
}

macro_rules! cases {
    ($($name:ident |$f:ident, $given:ident| $call:expr;)*) => {
        $(
            /// # Safety
            /// The buffer has `size` bytes, and the text `length` bytes of UTF-8.
            #[no_mangle]
            pub unsafe extern "C" fn $name(start: *mut u8, size: usize, text: *const u8, length: usize, n: i64, float: f64) -> isize {
                let (buffer, text) = unsafe { (core::slice::from_raw_parts_mut(start, size), core::slice::from_raw_parts(text, length)) };
                let text = unsafe { core::str::from_utf8_unchecked(text) };
                let wide = (n as u128).wrapping_mul(0x9E37_79B9_7F4A_7C15_F39C_C060_5CED_C835);
                let given = Given { n, wide, float, size: length, text };
                let mut formatter = Formatter::new(Cursor::new(buffer));
                #[inline(always)]
                fn print($f: Printer, $given: Given) -> Printed {
                    $call
                }
                let outcome = print(&mut formatter, given);
                match outcome {
                    Ok(()) => formatter.into_inner().written().len() as isize,
                    Err(Full) => -1,
                }
            }
        )*
    };
}

cases! {
    case_u8 |f, g| debug(f, g.n as u8);
    case_u16 |f, g| debug(f, g.n as u16);
    case_u32 |f, g| debug(f, g.n as u32);
    case_u64 |f, g| debug(f, g.n as u64);
    case_u128 |f, g| debug(f, g.wide);
    case_usize |f, g| debug(f, g.size);
    case_i8 |f, g| debug(f, g.n as i8);
    case_i32 |f, g| debug(f, g.n as i32);
    case_i64 |f, g| debug(f, g.n);
    case_i128 |f, g| debug(f, g.wide as i128);
    case_isize |f, g| debug(f, g.n as isize);
    case_f32 |f, g| debug(f, g.float as f32);
    case_f64 |f, g| debug(f, g.float);
    case_display_f64 |f, g| display(f, g.float);
    case_display_f32 |f, g| display(f, g.float as f32);
    case_fixed_f64 |f, g| g.float.fmt_fixed(f, g.size);
    case_fixed_f32 |f, g| (g.float as f32).fmt_fixed(f, g.size);
    case_fixed_value |f, g| debug(f, Fixed { value: g.float, decimals: 2 });
    case_char |f, g| debug(f, char::from_u32(g.n as u32).unwrap_or('-'));
    case_display_char |f, g| display(f, char::from_u32(g.n as u32).unwrap_or('-'));
    case_str |f, g| debug(f, g.text);
    case_display_str |f, g| display(f, g.text);
    case_bool |f, g| debug(f, g.n > 7);
    case_unit |f, _g| debug(f, ());
    case_option |f, g| debug(f, (g.n > 7).then_some(g.n));
    case_result |f, g| debug(f, if g.n > 7 { Ok(g.n) } else { Err(g.text) });
    case_ordering |f, g| debug(f, if g.n > 7 { Ordering::Less } else { Ordering::Greater });
    case_bound |f, g| debug(f, if g.n > 7 { Bound::Included(g.n) } else { Bound::Unbounded });
    case_flow |f, g| debug(f, if g.n > 7 { ControlFlow::Break(g.n) } else { ControlFlow::Continue(1u8) });
    case_range |f, g| debug(f, 0..g.n);
    case_range_inclusive |f, g| debug(f, 0..=g.n);
    case_wrapping |f, g| debug(f, (Wrapping(g.n), Saturating(g.n), Reverse(g.n)));
    case_nonzero |f, g| debug(f, (NonZeroU8::new(g.n as u8), NonZeroI64::new(g.n)));
    case_cell |f, g| debug(f, CellValue::of(&Cell::new(g.n)));
    case_ref_cell |f, g| debug(f, RefCellValue::of(&RefCell::new(g.n)));
    case_slice |f, g| debug(f, g.text.as_bytes());
    case_array |f, g| debug(f, [g.n; 8]);
    case_tuple_of_four |f, g| debug(f, (g.n, g.text, g.float, g.n > 7));
    case_struct |f, g| debug(f, Pair { x: g.n as i32, y: 1 });
    case_tuple |f, g| debug(f, Tuple(g.n as u8, g.n));
    case_enum |f, g| debug(f, match g.n { 0 => Event::Started, 1 => Event::Said(1, g.n as i32), _ => Event::Lost { since: g.n as u32, peers: 2 } });
    case_pretty_struct |f, g| pretty(f, Pair { x: g.n as i32, y: 1 });
    case_pretty_tuple |f, g| pretty(f, (g.n, (g.text, [g.n; 3])));
    case_pretty_str |f, g| pretty(f, g.text);
    case_list |f, g| { let mut b = f.debug_list()?; b.entry(&g.n)?; b.entries([g.n])?; let outcome = uDebug::fmt(&g.n, b.begin_entry()?); b.end_entry(outcome)?; b.finish() };
    case_set |f, g| { let mut b = f.debug_set()?; b.entry(&g.n)?; b.entries([g.n])?; let outcome = uDebug::fmt(&g.n, b.begin_entry()?); b.end_entry(outcome)?; b.finish() };
    case_map |f, g| { let mut b = f.debug_map()?; b.entry(&g.n, &g.text)?; b.entries([(g.n, g.n)])?; let outcome = uDebug::fmt(&g.n, b.begin_entry()?); let outcome = uDebug::fmt(&g.n, b.begin_value(outcome)?); b.end_entry(outcome)?; b.finish() };
    case_debug_struct |f, g| { let mut b = f.debug_struct(g.text)?; b.field(g.text, &g.n)?; let outcome = uDebug::fmt(&g.n, b.begin_field("b")?); b.end_field(outcome)?; if g.n > 7 { b.finish() } else { b.finish_non_exhaustive() } };
    case_debug_tuple |f, g| { let mut b = f.debug_tuple(g.text)?; b.field(&g.n)?; let outcome = uDebug::fmt(&g.n, b.begin_field()?); b.end_field(outcome)?; b.finish() };
    case_list_of |f, g| f.list_of(&[g.n, 2]);
    case_set_of |f, g| f.set_of(&[g.n, 2]);
    case_map_of |f, g| f.map_of(&[(g.n, g.text)]);
    case_hex |f, g| g.n.fmt_hex(f, g.options());
    case_hex_wide |f, g| g.wide.fmt_hex(f, g.options());
    case_binary |f, g| g.n.fmt_radix(f, Radix::Binary, g.options());
    case_octal |f, g| g.wide.fmt_radix(f, Radix::Octal, g.options());
    case_stuff |f, g| g.options().with_stuff(f, g.text);
    case_zeros |f, g| g.n.fmt_zeros(f, g.size);
    case_decimal |f, g| display(f, Decimal { value: g.n, places: g.size as u8 });
    case_column |f, g| ufmt::Line::print(&pieces!(debug (g.n) in g.column(), text g.text), f);
    case_column_of_text |f, g| ufmt::Line::print(&pieces!(display (g.text) in g.column()), f);
    case_column_of_hex |f, g| ufmt::Line::print(&pieces!(hex (g.n) with (g.options()) in g.column()), f);
    case_each |f, g| ufmt::Line::print(&pieces!(each debug (g.text.as_bytes()) between ", "), f);
    case_uwriteln |f, g| uwriteln!(f, text "n = ", debug g.n, text g.text, fixed (g.float) to 2);
    case_dump |f, g| { let mut room = [0; 256]; let dump = HexDump { per_row: g.size, group: g.n as usize, offset: Some(g.n as u32), ascii: g.n > 7 }; let length = ufmt::hex_dump_into(&mut room, g.text.as_bytes(), &dump)?; f.write_str(if length > 7 { "long" } else { "short" }) };
    case_debug_into |f, g| { let mut room = [0; 64]; let length = ufmt::debug_into(&mut room, &g.n)?; f.write_str(if length > 7 { "long" } else { "short" }) };
    case_line_into |f, g| { let mut room = [0; 64]; let length = ufmt::line_into(&mut room, &pieces!(text g.text, debug g.n))?; f.write_str(if length > 7 { "long" } else { "short" }) };
    case_cut |f, g| { let mut room = [0; 64]; let cut = ufmt::line_cut_into(&mut room, &pieces!(text g.text, debug g.n)); f.write_str(if cut.is_whole { "whole" } else { "cut" }) };
    case_truncating |f, g| { let mut room = [0; 64]; let mut w = Truncating::new(&mut room); let _ = w.write_str(g.text); let _ = w.write_char('€'); let whole = w.remaining() > 7 && w.written().len() < 9; f.write_str(if whole { "whole" } else { "cut" }) };
    case_cursor |f, g| { let mut room = [0; 64]; let mut w = Cursor::new(&mut room); w.write_str(g.text)?; w.write_char('€')?; f.write_str(if w.remaining() > 7 { "whole" } else { "cut" }) };
    case_write_char |f, g| f.write_char(char::from_u32(g.n as u32).unwrap_or('-'));
}
