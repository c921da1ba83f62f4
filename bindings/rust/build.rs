//! Links the static library.
//!
//! `TYPST_C_DIR` is the folder that holds `libtypst_c.a`. `rt lib` in crates/typst_c makes that file. Without the variable
//! the crate can be checked and documented, but no program can be linked.
use std::path::Path;
use std::{env, process};

/// Ends the build: the archive isn't where the variable says.
fn refuse(text: &str) -> ! {
    eprintln!("typst-tree: {text}; docs/RUST.md says how to make the archive");
    process::exit(1)
}

fn main() {
    println!("cargo:rerun-if-env-changed=TYPST_C_DIR");
    let Ok(folder) = env::var("TYPST_C_DIR") else {
        println!(
            "cargo:warning=no program can be linked: set TYPST_C_DIR to the folder of libtypst_c.a (docs/RUST.md)"
        );
        return;
    };
    let file = Path::new(&folder).join("libtypst_c.a");
    println!("cargo:rerun-if-changed={}", file.display());
    if file.is_relative() {
        refuse(&format!("TYPST_C_DIR is {folder}, but it must be an absolute path"));
    }
    if !file.is_file() {
        refuse(&format!(
            "TYPST_C_DIR is {folder}, but there is no file {}",
            file.display()
        ));
    }
    println!("cargo:rustc-link-search=native={folder}");
    println!("cargo:rustc-link-lib=static=typst_c");
}
