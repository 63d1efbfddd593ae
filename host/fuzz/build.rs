// Compiles the C part, and links it and libFuzzer, which clang has.
use std::{
    env,
    process::{Command, Output},
};

const DRIVER: &str = "lib/linux/libclang_rt.fuzzer_no_main-x86_64.a";

fn clang(words: &[&str]) -> Output {
    let output = Command::new("clang").args(words).output();
    let output = output.expect("clang can be started");
    let said = String::from_utf8_lossy(&output.stderr);
    assert!(output.status.success(), "clang: {said}");
    output
}

fn main() {
    println!("cargo::rerun-if-changed=build.rs");
    println!("cargo::rerun-if-changed=blocks.c");
    let out = env::var("OUT_DIR").expect("set by cargo");
    let object = format!("{out}/blocks.o");
    clang(&["-O2", "-Wall", "-Wextra", "-c", "blocks.c", "-o", &object]);
    let driver = clang(&[&format!("-print-file-name={DRIVER}")]);
    let driver = String::from_utf8_lossy(&driver.stdout).trim().to_owned();
    for word in [&object, &driver, "-lstdc++"] {
        println!("cargo::rustc-link-arg={word}");
    }
}
