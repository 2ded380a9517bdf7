#![no_std]
#![allow(
    non_camel_case_types,
    unused_variables,
    dead_code,
    clippy::too_many_arguments,
    clippy::manual_range_contains,
    clippy::manual_abs_diff,
    clippy::assign_op_pattern,
    clippy::needless_lifetimes,
    clippy::manual_is_multiple_of
)]

#[cfg(feature = "alloc")]
extern crate alloc;
#[cfg(feature = "std")]
extern crate std;
