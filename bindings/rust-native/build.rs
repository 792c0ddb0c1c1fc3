//! Says where `libsubsetter.a` is: in the folder that SUBSETTER_LIBRARY_FOLDER names, else in `native/TARGET`, where the
//! package carries libraries, else in `../c/out`.

use std::env;
use std::path::{Path, PathBuf};

fn main() {
    println!("cargo:rerun-if-env-changed=SUBSETTER_LIBRARY_FOLDER");
    let here = Path::new(env!("CARGO_MANIFEST_DIR"));
    let folder = match env::var_os("SUBSETTER_LIBRARY_FOLDER").filter(|folder| !folder.is_empty()) {
        Some(folder) => PathBuf::from(folder),
        None if here.join("native").is_dir() => here.join("native").join(env::var("TARGET").expect("Cargo sets it")),
        None => here.join("../c/out"),
    };
    // (Cargo runs this program in the package's folder, and doesn't say where it was called itself)
    assert!(folder.is_absolute(), "SUBSETTER_LIBRARY_FOLDER is the relative {}: name the whole path", folder.display());
    let library = folder.join("libsubsetter.a");
    println!("cargo:rerun-if-changed={}", library.display());
    let other = "SUBSETTER_LIBRARY_FOLDER names the folder of another; in a clone `make` in bindings/c builds one";
    assert!(library.is_file(), "{} isn't there: {other}", library.display());
    println!("cargo:rustc-link-search=native={}", folder.display());
    println!("cargo:rustc-link-lib=static=subsetter");
}
