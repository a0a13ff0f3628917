//! Links libFuzzer, which comes with clang and has the `main` of the program.

use std::{path::PathBuf, process::Command};

fn main() {
    let asked = Command::new("clang").arg("--print-resource-dir").output();
    let told = asked.expect("clang is wanted, with its runtime library").stdout;
    let folder = PathBuf::from(String::from_utf8(told).unwrap().trim()).join("lib/linux");
    println!("cargo::rustc-link-search=native={}", folder.display());
    println!("cargo::rustc-link-lib=static=clang_rt.fuzzer-x86_64");
    println!("cargo::rustc-link-lib=stdc++");
}
