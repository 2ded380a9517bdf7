//! Errors.
use crate::rows::Rows;
use std::env::VarError;
use std::error::Error;
use std::ffi::CString;
use std::io::{self, ErrorKind};
use std::net::IpAddr;
use std::sync::{Mutex, PoisonError, TryLockError};
use std::time::{Duration, SystemTime};

pub fn add(rows: &mut Rows) {
    parse_errors(rows);
    conversions(rows);
    io_errors(rows);
    others(rows);
}

fn parse_errors(rows: &mut Rows) {
    rows.add("ParseIntError", &"x".parse::<u8>().unwrap_err());
    rows.add("ParseIntError in a Result", &"".parse::<u8>());
    rows.add("ParseFloatError", &"x".parse::<f64>().unwrap_err());
    rows.add("ParseBoolError", &"x".parse::<bool>().unwrap_err());
    rows.add("ParseCharError", &"xy".parse::<char>().unwrap_err());
    rows.add("AddrParseError", &"x".parse::<IpAddr>().unwrap_err());
}

fn conversions(rows: &mut Rows) {
    rows.add("Utf8Error", &String::from_utf8(vec![97, 255]).unwrap_err().utf8_error());
    rows.add("FromUtf8Error", &String::from_utf8(vec![97, 255]));
    rows.add("FromUtf16Error", &String::from_utf16(&[0xd800]));
    rows.add("TryFromIntError", &u8::try_from(256));
    rows.add("CharTryFromError", &char::try_from(0xd800_u32));
    rows.add("TryFromSliceError", &<[u8; 2]>::try_from(&[1_u8][..]));
    rows.add("NulError", &CString::new("a\0b"));
    rows.add("TryReserveError", &Vec::<u8>::new().try_reserve(usize::MAX).unwrap_err());
    rows.add(
        "SystemTimeError",
        &SystemTime::UNIX_EPOCH.duration_since(SystemTime::UNIX_EPOCH + Duration::from_micros(15)),
    );
}

fn io_errors(rows: &mut Rows) {
    rows.add("io::Error simple", &io::Error::from(ErrorKind::NotFound));
    rows.add("io::Error of the system", &io::Error::from_raw_os_error(2));
    rows.add("io::Error custom", &io::Error::new(ErrorKind::Other, "valve is stuck"));
    rows.add("io::Error of an error", &io::Error::new(ErrorKind::InvalidData, "x".parse::<u8>().unwrap_err()));
    rows.add("io::Error in a Result", &Err::<(), _>(io::Error::from(ErrorKind::UnexpectedEof)));
    rows.add("ErrorKind", &ErrorKind::PermissionDenied);
}

fn others(rows: &mut Rows) {
    rows.add("fmt::Error", &std::fmt::Error);
    rows.add("VarError", &VarError::NotPresent);
    rows.add("VarError with a text", &VarError::NotUnicode("a=\"b\"".into()));
    rows.add("Box of an Error", &Box::<dyn Error>::from("a message"));
    let cell = std::cell::RefCell::new(1);
    let _guard = cell.borrow_mut();
    rows.add("BorrowError", &cell.try_borrow().unwrap_err());
    rows.add("PoisonError", &PoisonError::new(1));
    let mutex = Mutex::new(1);
    let _locked = mutex.lock().unwrap();
    rows.add("TryLockError", &mutex.try_lock().unwrap_err());
    rows.add("TryLockError poisoned", &TryLockError::Poisoned(PoisonError::new(1)));
}
