//! Links the proved functions: the static libraries that `./static-library
//! inserter one_field` writes below the repository's root. The second has one
//! function, which is there for the comparison alone.

const LIBRARIES: [&str; 2] = ["inserter", "one_field"];

fn main() {
    let here = std::env::var("CARGO_MANIFEST_DIR").expect("cargo names the package's folder");
    let folder = format!("{here}/../target/staticlib");
    println!("cargo:rustc-link-search=native={folder}");
    for library in LIBRARIES {
        println!("cargo:rustc-link-lib=static={library}");
        println!("cargo:rerun-if-changed={folder}/lib{library}.a");
    }
}
