//! Says where libsfu.a is: `SFU_LIB_DIR`, else where the package puts it.
fn main() {
    println!("cargo:rerun-if-env-changed=SFU_LIB_DIR");
    if let Ok(folder) = std::env::var("SFU_LIB_DIR") {
        println!("cargo:rustc-link-search=native={folder}");
    }
    println!("cargo:rustc-link-lib=static=sfu");
}
