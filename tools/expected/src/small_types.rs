//! Option, Result, tuples, and other small types of std.
use crate::rows::Rows;
use std::alloc::Layout;
use std::any::Any;
use std::cmp::{Ordering, Reverse};
use std::fmt::Alignment;
use std::io::SeekFrom;
use std::marker::{PhantomData, PhantomPinned};
use std::mem::{discriminant, ManuallyDrop, MaybeUninit};
use std::ops::ControlFlow;
use std::pin::Pin;
use std::sync::atomic;
use std::task::Poll;
use std::thread;

pub fn add(rows: &mut Rows) {
    options(rows);
    tuples(rows);
    markers(rows);
    written(rows);
}

fn options(rows: &mut Rows) {
    rows.add("Some", &Some(1));
    rows.add("None", &None::<u8>);
    rows.add("Some of Some of None", &Some(Some(None::<u8>)));
    rows.add("Ok", &Ok::<u8, ()>(1));
    rows.add("Err", &Err::<(), _>("no such thing"));
    rows.add("Ok of an Option of a Result", &Ok::<_, u8>(Some(Err::<u8, _>('x'))));
    rows.add("Poll ready", &Poll::Ready(1));
    rows.add("Poll pending", &Poll::<u8>::Pending);
    rows.add("ControlFlow continue", &ControlFlow::<u8, u8>::Continue(1));
    rows.add("ControlFlow break", &ControlFlow::<_, u8>::Break("end"));
}

fn tuples(rows: &mut Rows) {
    rows.add("unit", &());
    rows.add("unit in Ok", &Ok::<(), u8>(()));
    rows.add("tuple of one", &(1,));
    rows.add("tuple of two", &(1, "a"));
    rows.add("tuple of floats and units", &(1.5, (), -0.5));
    rows.add("tuple of tuples", &((1,), (2, (3, 4))));
}

fn markers(rows: &mut Rows) {
    rows.add("Ordering", &Ordering::Less);
    rows.add("atomic::Ordering", &atomic::Ordering::SeqCst);
    rows.add("Reverse", &Reverse(1));
    rows.add("PhantomData", &PhantomData::<u8>);
    rows.add("PhantomData of a path", &PhantomData::<String>);
    rows.add("PhantomData of a slice", &PhantomData::<&[u8]>);
    rows.add("PhantomPinned", &PhantomPinned);
    rows.add("Pin", &Pin::new(&1));
    rows.add("ManuallyDrop", &ManuallyDrop::new(1));
    rows.add("MaybeUninit", &MaybeUninit::new(1_u8));
    rows.add("Discriminant", &discriminant(&Some(1)));
    rows.add("Alignment", &Alignment::Center);
    rows.add("SeekFrom", &SeekFrom::End(-3));
    rows.add("Any", &(&1_u8 as &dyn Any));
    rows.add("Layout", &Layout::new::<u32>());
    rows.add("ThreadId", &thread::current().id());
    rows.add("Thread", &thread::current());
    rows.add("thread::Builder", &thread::Builder::new().name("worker".to_string()));
}

fn written(rows: &mut Rows) {
    rows.add("Arguments of a word", &format_args!("{}/{}", 1, 2));
    rows.add("Arguments of words", &format_args!("{} of {}", 1, 2));
    rows.add("Arguments of lines", &format_args!("a\tb\n100%"));
    rows.add("Arguments of a value", &format_args!("{:?}", Some(1)));
}
