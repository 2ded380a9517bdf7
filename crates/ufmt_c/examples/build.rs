//! Links a cargo package with the library that pkg-config finds: src/main.rs is convert.rs.
use std::process::Command;

fn main() {
    let found = Command::new("pkg-config")
        .args(["--variable=libdir", "ufmt_c"])
        .output()
        .expect("pkg-config runs");
    let folder = String::from_utf8(found.stdout).expect("the folder's name is UTF-8");
    assert!(found.status.success(), "pkg-config finds no ufmt_c: set PKG_CONFIG_PATH");
    // pkg-config writes a backslash before a space in the name.
    let folder = folder.trim_end().replace("\\ ", " ");
    println!("cargo::rustc-link-search=native={folder}");
    println!("cargo::rerun-if-env-changed=PKG_CONFIG_PATH");
}
