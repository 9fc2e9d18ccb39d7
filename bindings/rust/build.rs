//! Links the archive that `rt lib` made in crates/fm_c, and the kit's heap. `FM_C` and `RATTLE_C` name other folders.
use std::env;
use std::path::PathBuf;

fn main() {
    let here = PathBuf::from(env::var("CARGO_MANIFEST_DIR").expect("cargo sets it"));
    let archive =
        env::var("FM_C").map_or_else(|_| here.join("../../crates/fm_c/out"), PathBuf::from);
    let kit = env::var("RATTLE_C").unwrap_or_else(|_| "/opt/rattle/c".into());
    println!("cargo::rustc-link-search=native={}", archive.display());
    println!("cargo::rustc-link-search=native={kit}");
    println!("cargo::rustc-link-lib=static=fm_c");
    println!("cargo::rustc-link-lib=static=libc_c");
    println!("cargo::rerun-if-env-changed=FM_C");
    println!("cargo::rerun-if-env-changed=RATTLE_C");
    println!(
        "cargo::rerun-if-changed={}",
        archive.join("libfm_c.a").display()
    );
}
