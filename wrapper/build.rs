//! Says where the static library is: in the folder that LOCUSTDOMINO_LIB names, else where `wrapper/staticlib` puts it.

fn main() {
    let here = std::env::var("CARGO_MANIFEST_DIR").unwrap();
    let folder = std::env::var("LOCUSTDOMINO_LIB").unwrap_or(format!("{here}/../target/staticlib"));
    println!("cargo:rustc-link-search=native={folder}");
    println!("cargo:rerun-if-env-changed=LOCUSTDOMINO_LIB");
    println!("cargo:rerun-if-changed={folder}/liblocustdomino.a");
}
