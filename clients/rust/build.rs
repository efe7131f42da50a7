//! With the feature `embedded`: compiles `clients/embed/tsd_embed.c`, and names the library `libtsd.a`, which the variable
//! TSD_LIBRARY names, or else is the shipped one. Without it there is nothing to do.

use std::env;
use std::path::{Path, PathBuf};
use std::process::Command;

fn main() {
    println!("cargo:rerun-if-changed=build.rs");
    println!("cargo:rerun-if-env-changed=TSD_LIBRARY");
    if env::var_os("CARGO_FEATURE_EMBEDDED").is_none() {
        return;
    }
    let top = Path::new(env!("CARGO_MANIFEST_DIR")).join("../..");
    let source = top.join("clients/embed/tsd_embed.c");
    let library = env::var_os("TSD_LIBRARY").map_or_else(|| top.join("dist/x86_64-linux/libtsd.a"), PathBuf::from);
    let room = PathBuf::from(env::var_os("OUT_DIR").expect("cargo names it"));
    let compiler = env::var_os("CC").unwrap_or_else(|| "cc".into());
    println!("cargo:rerun-if-changed={}", source.display());
    println!("cargo:rerun-if-changed={}", library.display());
    let object = room.join("tsd_embed.o");
    run(Command::new(compiler).args(["-std=c11", "-O2", "-fPIC", "-c", "-o"]).arg(&object).arg(&source));
    run(Command::new("ar").arg("rcs").arg(room.join("libtsd_embed.a")).arg(&object));
    std::fs::copy(&library, room.join("libtsd.a")).unwrap_or_else(|error| panic!("{}: {error}", library.display()));
    println!("cargo:rustc-link-search=native={}", room.display());
    println!("cargo:rustc-link-lib=static=tsd_embed");
    println!("cargo:rustc-link-lib=static=tsd");
}

fn run(command: &mut Command) {
    let status = command.status().unwrap_or_else(|error| panic!("{command:?}: {error}"));
    assert!(status.success(), "{command:?} ended with {status}");
}
