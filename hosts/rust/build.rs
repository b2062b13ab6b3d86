// Links the kit's static library. It is made apart from this package, so its folder is looked for here
// and a missing library is said plainly instead of as a linker's complaint.

use std::env;
use std::path::PathBuf;
use std::process::exit;

fn main() {
    let package = PathBuf::from(env::var("CARGO_MANIFEST_DIR").unwrap_or_default());
    let folder = match env::var_os("KIT_LIB") {
        Some(folder) => PathBuf::from(folder),
        None => package.join("../../target/hosts"),
    };
    let library = folder.join("libkit.a");
    println!("cargo:rerun-if-env-changed=KIT_LIB");
    println!("cargo:rerun-if-changed=build.rs");
    println!("cargo:rerun-if-changed={}", library.display());
    if !library.is_file() {
        eprintln!(
            "no {}: run `hosts/build` at the top of the project first, or name the library's folder in KIT_LIB",
            library.display()
        );
        exit(1);
    }
    println!("cargo:rustc-link-search=native={}", folder.display());
    println!("cargo:rustc-link-lib=static=kit");
}
