// Links the proved library, which bindings/library leaves in target/staticlib of the repository.
use std::{env, path::Path};

fn main() {
    let dir = Path::new(&env::var("CARGO_MANIFEST_DIR").unwrap()).join("../../target/staticlib");
    let library = dir.join("libecchjulmina.a");
    println!("cargo:rerun-if-changed={}", library.display());
    assert!(library.exists(), "libecchjulmina.a is not there: run bindings/library first");
    println!("cargo:rustc-link-search=native={}", dir.display());
    println!("cargo:rustc-link-lib=static=ecchjulmina");
}
