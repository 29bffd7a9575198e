//! Where the static library is: IRWYSTL_LIB_DIR, the folder target/staticlib that outside/programs fills.

use std::env;

fn main() {
    println!("cargo:rerun-if-env-changed=IRWYSTL_LIB_DIR");
    let folder = env::var("IRWYSTL_LIB_DIR")
        .expect("IRWYSTL_LIB_DIR names the folder of the static library");
    println!("cargo:rerun-if-changed={folder}");
    println!("cargo:rustc-link-search=native={folder}");
    println!("cargo:rustc-link-lib=static=exports");
}
