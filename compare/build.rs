//! Links the library from the folder in HONEYGIMLET_LIB, and only when that is set.
//! Without it the program is built with the model alone.

use std::{env, path::Path};

fn main() {
    println!("cargo:rustc-check-cfg=cfg(library)");
    println!("cargo:rerun-if-env-changed=HONEYGIMLET_LIB");
    let folder = match env::var("HONEYGIMLET_LIB") {
        Ok(folder) if !folder.is_empty() => folder,
        _ => return,
    };
    let candidates = [("libhoneygimlet.a", "static=honeygimlet"), ("libhoneygimlet.so", "dylib=honeygimlet")];
    let found = candidates.iter().find(|(file, _)| Path::new(&folder).join(file).exists());
    let (file, link) = found.unwrap_or_else(|| panic!("no library in {folder}"));
    println!("cargo:rerun-if-changed={folder}/{file}");
    println!("cargo:rustc-link-search=native={folder}");
    println!("cargo:rustc-link-lib={link}");
    if link.starts_with("dylib") {
        println!("cargo:rustc-link-arg=-Wl,-rpath,{folder}");
    }
    println!("cargo:rustc-cfg=library");
}
