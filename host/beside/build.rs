//! Compiles the few lines of C++ that ask Trend Micro's own library, where Debian's libtlsh-dev and g++ are there, and links
//! libtimed.a, where that was made. Where they are not, the programs say so when they run.
use std::path::Path;
use std::process::Command;
use std::{env, fs};

const HEADER: &str = "/usr/include/tlsh.h";
const SHIM: &str = "src/judge.cpp";

/// Compiles the shim to an archive in `out`, or says why that cannot be.
fn compile(out: &Path) -> Result<(), String> {
    if !Path::new(HEADER).is_file() {
        return Err(format!("no {HEADER} (Debian's libtlsh-dev has it)"));
    }
    let object = out.join("judge.o");
    let archive = out.join("libjudge.a");
    let _ = fs::remove_file(&archive);
    for (tool, command) in [
        ("g++", Command::new("g++").args(["-O2", "-c", SHIM, "-o"]).arg(&object)),
        ("ar", Command::new("ar").arg("rcs").arg(&archive).arg(&object)),
    ] {
        let ran = command.status().map_err(|e| format!("{tool} does not run: {e}"))?;
        if !ran.success() {
            return Err(format!("{tool} fails on {SHIM}"));
        }
    }
    Ok(())
}

/// Links libtimed.a from the folder that has libsaltcurtain.a, or says why that cannot be.
fn link_timed() -> Result<(), String> {
    let root = Path::new(env!("CARGO_MANIFEST_DIR")).ancestors().nth(2).expect("the project's root");
    let folder = root.join(env::var("SALTCURTAIN_LIB").unwrap_or("target/staticlib".into()));
    let archive = folder.join("libtimed.a");
    println!("cargo::rerun-if-env-changed=SALTCURTAIN_LIB");
    println!("cargo::rerun-if-changed={}", archive.display());
    if !archive.is_file() {
        return Err("no libtimed.a (`tools/build timed` makes it)".into());
    }
    println!("cargo::rustc-link-search=native={}", folder.display());
    println!("cargo::rustc-link-lib=static=timed");
    Ok(())
}

fn main() {
    match link_timed() {
        Ok(()) => println!("cargo::rustc-cfg=timed_library"),
        Err(why) => println!("cargo::rustc-env=NO_TIMED_LIBRARY={why}"),
    }
    let out = env::var("OUT_DIR").expect("cargo sets OUT_DIR");
    println!("cargo::rerun-if-changed={SHIM}");
    println!("cargo::rerun-if-changed={HEADER}");
    println!("cargo::rerun-if-changed=/usr/bin/g++");
    match compile(Path::new(&out)) {
        Ok(()) => {
            println!("cargo::rustc-cfg=second_judge");
            println!("cargo::rustc-link-search=native={out}");
            println!("cargo::rustc-link-lib=static=judge");
            println!("cargo::rustc-link-lib=tlsh");
            println!("cargo::rustc-link-lib=stdc++");
        }
        Err(why) => println!("cargo::rustc-env=NO_SECOND_JUDGE={why}"),
    }
}
