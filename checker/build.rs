//! With the feature `box`: links the box's library, `libquay.a`, and `src/ffi.c`,
//! compiled with its header, `quay.h`, both in the folder that the environment
//! variable `QUAY_LIB` names; and the calls to which no door leads, `libprobe.a`, in
//! the folder that `QUAY_PROBE` names.

use std::env;
use std::path::Path;
use std::process::Command;

fn main() {
    println!("cargo:rerun-if-changed=build.rs");
    println!("cargo:rerun-if-env-changed=QUAY_LIB");
    println!("cargo:rerun-if-env-changed=QUAY_PROBE");
    if env::var_os("CARGO_FEATURE_BOX").is_none() {
        return;
    }
    let library = folder("QUAY_LIB", &["libquay.a", "quay.h"]);
    let probe = folder("QUAY_PROBE", &["libprobe.a"]);
    link(&library, "quay");
    link_inline(&library);
    link(&probe, "probe");
}

/// The folder that a variable names, in which these files must be.
fn folder(variable: &str, files: &[&str]) -> String {
    let wanted = format!("{variable} must name the folder of {}", files.join(" and "));
    let folder = env::var(variable).unwrap_or_else(|_| panic!("{wanted}"));
    for file in files {
        let path = Path::new(&folder).join(file);
        assert!(path.is_file(), "{wanted}; {} is no file", path.display());
    }
    folder
}

fn link(folder: &str, name: &str) {
    println!("cargo:rerun-if-changed={folder}/lib{name}.a");
    println!("cargo:rustc-link-search=native={folder}");
    println!("cargo:rustc-link-lib=static={name}");
}

/// Makes an archive of `src/ffi.c`, in which the header's inline functions are.
fn link_inline(folder: &str) {
    println!("cargo:rerun-if-changed={folder}/quay.h");
    println!("cargo:rerun-if-changed=src/ffi.c");
    let out = env::var("OUT_DIR").expect("cargo sets it");
    let (object, archive) = (format!("{out}/inline.o"), format!("{out}/libinline.a"));
    let strict = [
        "-std=c99",
        "-O2",
        "-Wall",
        "-Wextra",
        "-Werror",
        "-pedantic",
    ];
    let mut compile = Command::new("cc");
    compile
        .args(strict)
        .args(["-I", folder, "-c", "src/ffi.c", "-o", &object]);
    done(&mut compile);
    done(Command::new("ar").args(["crs", &archive, &object]));
    println!("cargo:rustc-link-search=native={out}");
    println!("cargo:rustc-link-lib=static=inline");
}

fn done(command: &mut Command) {
    let status = command.status();
    let good = status.as_ref().is_ok_and(|status| status.success());
    assert!(good, "{command:?}: {status:?}");
}
