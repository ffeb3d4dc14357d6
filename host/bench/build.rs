//! Compiles src/pass.c with gcc and links it.
use std::{env, path::PathBuf, process::Command};

fn main() {
    let out = PathBuf::from(env::var_os("OUT_DIR").expect("cargo sets it"));
    let run = |program: &str, words: &[&str]| {
        let status = Command::new(program).args(words).current_dir(&out).status();
        assert!(status.is_ok_and(|status| status.success()), "{program} failed");
    };
    let source = PathBuf::from(env::var_os("CARGO_MANIFEST_DIR").expect("cargo sets it")).join("src/pass.c");
    let source = source.to_str().expect("a path in UTF-8");
    run("gcc", &["-std=c11", "-Wall", "-Wextra", "-O2", "-fPIC", "-c", source, "-o", "pass.o"]);
    run("ar", &["rcs", "libpass.a", "pass.o"]);
    println!("cargo::rerun-if-changed=src/pass.c");
    println!("cargo::rustc-link-search=native={}", out.display());
    println!("cargo::rustc-link-lib=static=pass");
}
