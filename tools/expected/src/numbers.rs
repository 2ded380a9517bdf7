//! Numbers, truth values, and what wraps a number.
use crate::rows::Rows;
use std::num::{FpCategory, NonZero, Saturating, Wrapping};
use std::sync::atomic::{AtomicBool, AtomicI64, AtomicPtr, AtomicU8, AtomicUsize};

pub fn add(rows: &mut Rows) {
    integers(rows);
    floats(rows);
    wrapped(rows);
}

fn integers(rows: &mut Rows) {
    rows.add("u8 0", &0_u8);
    rows.add("u8 255", &u8::MAX);
    rows.add("i8 -128", &i8::MIN);
    rows.add("u32 1000000", &1_000_000_u32);
    rows.add("u64 greatest", &u64::MAX);
    rows.add("i128 least", &i128::MIN);
    rows.add("usize 7", &7_usize);
    rows.add("bool true", &true);
    rows.add("bool false", &false);
}

fn floats(rows: &mut Rows) {
    rows.add("f64 0", &0.0_f64);
    rows.add("f64 negative zero", &-0.0_f64);
    rows.add("f64 1.5", &1.5_f64);
    rows.add("f64 -2", &-2.0_f64);
    rows.add("f64 1e-7", &1e-7_f64);
    rows.add("f64 1e16", &1e16_f64);
    rows.add("f64 -1.5e300", &-1.5e300_f64);
    rows.add("f64 not a number", &f64::NAN);
    rows.add("f64 infinity", &f64::INFINITY);
    rows.add("f64 negative infinity", &f64::NEG_INFINITY);
    rows.add("f32 0.1", &0.1_f32);
    rows.add("f32 greatest", &f32::MAX);
    rows.add("floats in a list", &[0.5_f64, -1.0, 1e-7, f64::NAN]);
    rows.add("FpCategory", &FpCategory::Subnormal);
}

fn wrapped(rows: &mut Rows) {
    rows.add("NonZero", &NonZero::<u8>::MAX);
    rows.add("NonZero in Option", &NonZero::<i32>::new(-4));
    rows.add("Wrapping", &Wrapping(7_u8));
    rows.add("Saturating", &Saturating(-7_i8));
    rows.add("AtomicU8", &AtomicU8::new(3));
    rows.add("AtomicBool", &AtomicBool::new(true));
    rows.add("AtomicI64", &AtomicI64::new(-9));
    rows.add("AtomicUsize in a tuple", &(AtomicUsize::new(1), AtomicUsize::new(2)));
    rows.add("AtomicPtr null", &AtomicPtr::<u8>::new(std::ptr::null_mut()));
    rows.add("pointer null", &std::ptr::null::<u8>());
    rows.add("pointer null, mutable, in Some", &Some(std::ptr::null_mut::<u32>()));
}
