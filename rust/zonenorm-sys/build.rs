//! Finds libzonenorm: the archive in the folder ZONENORM_LIB_DIR, or else the shared library of the system (libzonenorm-dev).

fn main() {
    println!("cargo:rerun-if-env-changed=ZONENORM_LIB_DIR");
    match std::env::var("ZONENORM_LIB_DIR") {
        Ok(folder) => {
            println!("cargo:rustc-link-search=native={folder}");
            println!("cargo:rustc-link-lib=static=zonenorm");
        }
        Err(_) => println!("cargo:rustc-link-lib=dylib=zonenorm"),
    }
}
