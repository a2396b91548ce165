//! Links libparbegin.a of the folder that PARBEGIN_LIB names, as `./parbegin library FOLDER` writes it.

fn main() {
    println!("cargo:rerun-if-env-changed=PARBEGIN_LIB");
    if let Ok(folder) = std::env::var("PARBEGIN_LIB") {
        println!("cargo:rustc-link-search=native={folder}");
        println!("cargo:rerun-if-changed={folder}/libparbegin.a");
    }
    println!("cargo:rustc-link-lib=static=parbegin");
}
