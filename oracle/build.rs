// Says where the static libraries are left, and links those that are asked for.
use std::{env, path::Path};

fn main() {
    // oracle/fuzz and oracle/seed-faults have a library of their own
    println!("cargo:rerun-if-env-changed=ORACLE_STATICLIB");
    let dir = match env::var("ORACLE_STATICLIB") {
        Ok(dir) => dir.into(),
        Err(_) => Path::new(&env::var("CARGO_MANIFEST_DIR").unwrap()).join("../target/staticlib"),
    };
    println!("cargo:rustc-link-search=native={}", dir.display());
    for lib in ["speed_leaves", "speed_reading", "speed_writing", "ecchjulmina"] {
        println!("cargo:rerun-if-changed={}", dir.join(format!("lib{lib}.a")).display());
    }
}
