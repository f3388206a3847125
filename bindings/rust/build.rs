//! Tells the linker where libcession.a is: in the folder that CESSION_LIB_DIR names, else where the linker looks by
//! itself.

fn main() {
    println!("cargo:rerun-if-env-changed=CESSION_LIB_DIR");
    let folder = std::env::var("CESSION_LIB_DIR").unwrap_or_default();
    if !folder.is_empty() {
        println!("cargo:rustc-link-search=native={folder}");
        // The archive goes into what is built, so that a new one has to be noticed.
        println!("cargo:rerun-if-changed={folder}/libcession.a");
    }
}
