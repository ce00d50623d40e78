//! Links libmacheap.a from where pkg-config says that it is installed.
use std::process::Command;

fn main() {
    let told = Command::new("pkg-config").args(["--variable=libdir", "macheap"]).output().expect("pkg-config can't be run");
    assert!(told.status.success(), "pkg-config finds no macheap: is it installed, and is PKG_CONFIG_PATH its lib/pkgconfig?");
    println!("cargo::rustc-link-search=native={}", String::from_utf8_lossy(&told.stdout).trim());
    println!("cargo::rustc-link-lib=static=macheap");
    println!("cargo::rerun-if-env-changed=PKG_CONFIG_PATH");
}
