//! Links the program with the archive in the folder that SHIM_ARCHIVE names.

fn main() {
    println!("cargo:rerun-if-env-changed=SHIM_ARCHIVE");
    if let Ok(folder) = std::env::var("SHIM_ARCHIVE") {
        let archive = format!("{folder}/libshim.a");
        println!("cargo:rerun-if-changed={archive}");
        println!("cargo:rustc-link-arg-bins={archive}");
    }
}
