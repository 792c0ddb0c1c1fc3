//! Gives the shared library the name under which a linked program looks for it, that of `bindings/c/Makefile`.

use std::env;

/// The number in that name rises when a program that was linked before may no longer run.
const NUMBER: &str = "0";

fn main() {
    println!("cargo:rerun-if-changed=build.rs");
    let system = env::var("CARGO_CFG_TARGET_OS").expect("Cargo sets it");
    let name = match system.as_str() {
        // (a DLL has the name of its file)
        "windows" | "none" | "unknown" | "wasi" | "emscripten" => return,
        "macos" | "ios" => format!("-Wl,-install_name,@rpath/libsubsetter.{NUMBER}.dylib"),
        _ => format!("-Wl,-soname,libsubsetter.so.{NUMBER}"),
    };
    println!("cargo:rustc-cdylib-link-arg={name}");
}
