
/// The same calls by the package that `x rust` writes, which is appended to the peers' file.
mod by_ours {
    use super::{Event, Mode, Pair, Place, Point, Reading, Shape, Size, Span};
    use ours::{Cursor, Formatter, Full, debug_into, fields, line_into, pieces, pretty_into, uDebug, uWrite, variants, write_line};

    macro_rules! prints {
        ($($type:ty: $call:ident($($form:tt)*);)*) => {
            $(impl uDebug for $type {
                fn fmt<W: uWrite>(&self, f: &mut Formatter<W>) -> Result<(), W::Error> {
                    $call!(f, self, $($form)*)
                }
            })*
        };
    }

    prints! {
        Pair: fields(Pair { x, y });
        Point: fields(Point { left, right, depth });
        Size: fields(Size { width, height });
        Place: fields(Place { north, east, height });
        Reading: fields(Reading { channel, level });
        Span: fields(Span { from, to, open });
        Mode: variants(Mode { Idle, Run, Sleep });
        Event: variants(Event { Started, Said(node, text), Lost { since, peers } });
        Shape: variants(Shape { Dot, Circle(radius), Line { left, right } });
    }

    fn length(written: Result<usize, Full>) -> isize {
        match written {
            Ok(length) => length as isize,
            Err(Full) => -2,
        }
    }

    macro_rules! cases {
        ($($name:ident($buffer:ident, $x:ident, $y:ident) $write:expr;)*) => {
            $(
                #[no_mangle]
                pub unsafe extern "C" fn $name(start: *mut u8, size: usize, $x: i32, $y: i32) -> isize {
                    let $buffer = unsafe { core::slice::from_raw_parts_mut(start, size) };
                    length($write)
                }
            )*
        };
    }

    fn eight(buffer: &mut [u8], x: i32, y: i32) -> Result<usize, Full> {
        macro_rules! line {
            ($front:ident, $form:literal, $value:expr) => { write_line($front, &pieces!(debug $value, text "\n")) };
        }
        fn all(front: &mut Cursor<'_>, x: i32, y: i32) -> Result<(), Full> {
            eight!(line, front, x, y)
        }
        let mut cursor = Cursor::new(buffer);
        all(&mut cursor, x, y)?;
        Ok(cursor.written().len())
    }

    cases! {
        ours_text(buffer, _x, _y) line_into(buffer, &pieces!(text "Hello, World!\n"));
        ours_number(buffer, x, _y) debug_into(buffer, &x);
        ours_struct(buffer, x, y) debug_into(buffer, &Pair { x, y });
        ours_pretty(buffer, x, y) pretty_into(buffer, &Pair { x, y });
        ours_two(buffer, x, y) debug_into(buffer, &Pair { x, y }).and_then(|_| debug_into(buffer, &Point { left: x, right: y, depth: x }));
        ours_eight(buffer, x, y) eight(buffer, x, y);
        ours_line(buffer, x, y) line_into(buffer, &pieces!(text "x=", debug x, text " y=", debug y, text "\n"));
    }
}
