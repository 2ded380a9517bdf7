//! The calls whose bytes `x bench calls` counts, by core::fmt and, with the feature `ufmt`, by that crate.
#![no_std]
use core::fmt::{self, Debug, Write};

#[panic_handler]
fn stop(_: &core::panic::PanicInfo) -> ! {
    loop {}
}

/// Writes to the front of a buffer.
pub struct Front<'a> {
    buffer: &'a mut [u8],
    length: usize,
}

impl Front<'_> {
    fn put(&mut self, text: &str) -> Result<(), ()> {
        let end = self.length.checked_add(text.len()).ok_or(())?;
        self.buffer.get_mut(self.length..end).ok_or(())?.copy_from_slice(text.as_bytes());
        self.length = end;
        Ok(())
    }
}

impl fmt::Write for Front<'_> {
    fn write_str(&mut self, text: &str) -> fmt::Result {
        self.put(text).map_err(|()| fmt::Error)
    }
}

#[allow(dead_code)]
#[derive(Debug)]
#[cfg_attr(feature = "ufmt", derive(ufmt::derive::uDebug))]
struct Pair {
    x: i32,
    y: i32,
}

#[allow(dead_code)]
#[derive(Debug)]
#[cfg_attr(feature = "ufmt", derive(ufmt::derive::uDebug))]
struct Point {
    left: i32,
    right: i32,
    depth: i32,
}

macro_rules! eight_types {
    ($($item:item)*) => {
        $(
            #[allow(dead_code)]
            #[derive(Debug)]
            #[cfg_attr(feature = "ufmt", derive(ufmt::derive::uDebug))]
            $item
        )*
    };
}

eight_types! {
    struct Size { width: i32, height: i32 }
    struct Place { north: i32, east: i32, height: i32 }
    struct Reading { channel: u8, level: Option<i32> }
    struct Span { from: u32, to: u32, open: bool }
    enum Mode { Idle, Run, Sleep }
    enum Event { Started, Said(u8, i32), Lost { since: u32, peers: u8 } }
    enum Shape { Dot, Circle(i32), Line { left: i32, right: i32 } }
}

/// Prints values of eight types, a line each, as `$line` writes a line.
macro_rules! eight {
    ($line:ident, $front:ident, $x:ident, $y:ident) => {{
        let (unsigned, byte, open) = ($x.unsigned_abs(), $y as u8, $x < $y);
        let level = if open { Some($x) } else { None };
        let mode = match byte { 0 => Mode::Idle, 1 => Mode::Run, _ => Mode::Sleep };
        let event = match byte { 0 => Event::Started, 1 => Event::Said(byte, $y), _ => Event::Lost { since: unsigned, peers: byte } };
        let shape = match byte { 0 => Shape::Dot, 1 => Shape::Circle($y), _ => Shape::Line { left: $x, right: $y } };
        $line!($front, "{:?}", Size { width: $x, height: $y })?;
        $line!($front, "{:?}", Place { north: $x, east: $y, height: $x })?;
        $line!($front, "{:?}", Reading { channel: byte, level })?;
        $line!($front, "{:?}", Span { from: unsigned, to: unsigned, open })?;
        $line!($front, "{:?}", mode)?;
        $line!($front, "{:?}", event)?;
        $line!($front, "{:?}", shape)?;
        $line!($front, "{:?}", level)
    }};
}

/// What `write` leaves in the buffer: its length, or -2.
unsafe fn length<E>(start: *mut u8, size: usize, write: impl FnOnce(&mut Front<'_>) -> Result<(), E>) -> isize {
    let mut front = Front { buffer: unsafe { core::slice::from_raw_parts_mut(start, size) }, length: 0 };
    match write(&mut front) {
        Ok(()) => front.length as isize,
        Err(_) => -2,
    }
}

macro_rules! cases {
    ($($name:ident($x:ident, $y:ident) $write:expr;)*) => {
        $(
            #[no_mangle]
            pub unsafe extern "C" fn $name(start: *mut u8, size: usize, $x: i32, $y: i32) -> isize {
                unsafe { length(start, size, $write) }
            }
        )*
    };
}

fn core_debug<T: Debug>(front: &mut Front<'_>, value: T) -> fmt::Result {
    write!(front, "{value:?}")
}

cases! {
    core_text(_x, _y) |front| front.write_str("Hello, World!\n");
    core_number(x, _y) |front| core_debug(front, x);
    core_struct(x, y) |front| core_debug(front, Pair { x, y });
    core_pretty(x, y) |front| write!(front, "{:#?}", Pair { x, y });
    core_two(x, y) |front| {
        core_debug(front, Pair { x, y })?;
        front.length = 0;
        core_debug(front, Point { left: x, right: y, depth: x })
    };
    core_eight(x, y) |front| eight!(writeln, front, x, y);
    core_line(x, y) |front| writeln!(front, "x={x:?} y={y:?}");
}

#[cfg(feature = "ufmt")]
mod by_ufmt {
    use super::{Front, Pair, Point, length};
    use super::{Event, Mode, Place, Reading, Shape, Size, Span};
    use ufmt::{Formatter, uDebug, uWrite, uwriteln};

    impl uWrite for Front<'_> {
        type Error = ();

        fn write_str(&mut self, text: &str) -> Result<(), ()> {
            self.put(text)
        }
    }

    fn debug<T: uDebug>(front: &mut Front<'_>, value: T) -> Result<(), ()> {
        value.fmt(&mut Formatter::new(front))
    }

    cases! {
        ufmt_text(_x, _y) |front| front.write_str("Hello, World!\n");
        ufmt_number(x, _y) |front| debug(front, x);
        ufmt_struct(x, y) |front| debug(front, Pair { x, y });
        ufmt_pretty(x, y) |front| Formatter::new(front).pretty(|f| Pair { x, y }.fmt(f));
        ufmt_two(x, y) |front| {
            debug(front, Pair { x, y })?;
            front.length = 0;
            debug(front, Point { left: x, right: y, depth: x })
        };
        ufmt_eight(x, y) |front| eight!(uwriteln, front, x, y);
        ufmt_line(x, y) |front| {
            front.put("x=")?;
            debug(front, x)?;
            front.put(" y=")?;
            debug(front, y)?;
            front.put("\n")
        };
    }
}
