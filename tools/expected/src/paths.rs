//! Paths, texts of the system, processes, and what reads and writes.
use crate::rows::Rows;
use std::ffi::{OsStr, OsString};
use std::fs::Permissions;
use std::io::{self, BufReader, BufWriter, Cursor};
use std::os::unix::ffi::OsStrExt;
use std::os::unix::fs::PermissionsExt;
use std::os::unix::process::ExitStatusExt;
use std::path::{Path, PathBuf};
use std::process::{Command, ExitCode, ExitStatus, Output, Stdio};

pub fn add(rows: &mut Rows) {
    paths(rows);
    processes(rows);
    devices(rows);
}

fn paths(rows: &mut Rows) {
    rows.add("Path", &Path::new("/etc/a b"));
    rows.add("PathBuf", &PathBuf::from("log/é.txt"));
    rows.add("Path that isn't UTF-8", &Path::new(OsStr::from_bytes(b"a\xff\"")));
    rows.add("OsString", &OsString::from("a\nb"));
    rows.add("Components", &Path::new("/a/../b").components());
    rows.add("Component in Some", &Path::new("/a").components().next());
    rows.add("path::Display", &Path::new("a").display());
    rows.add("Permissions", &Permissions::from_mode(0o644));
}

fn processes(rows: &mut Rows) {
    rows.add("ExitStatus", &ExitStatus::from_raw(256));
    rows.add("ExitCode", &ExitCode::SUCCESS);
    rows.add("Command", Command::new("ls").arg("-l"));
    rows.add("Stdio", &Stdio::null());
    let output = Output { status: ExitStatus::from_raw(0), stdout: b"done\n".to_vec(), stderr: vec![] };
    rows.add("process::Output", &output);
}

fn devices(rows: &mut Rows) {
    rows.add("io::Cursor", &Cursor::new([1_u8, 2]));
    rows.add("io::Empty", &io::empty());
    rows.add("io::Sink in a Result", &Ok::<_, ()>(io::sink()));
    rows.add("Stdout", &io::stdout());
    rows.add("StdinLock", &io::stdin().lock());
    rows.add("BufReader", &BufReader::with_capacity(64, &b"abc"[..]));
    rows.add("BufWriter", &BufWriter::with_capacity(64, Vec::<u8>::new()));
}
