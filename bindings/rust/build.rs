//! Links libcapi.a from the folder that CAPI_LIB_DIR names (an absolute path).

fn main() {
    println!("cargo:rerun-if-env-changed=CAPI_LIB_DIR");
    let folder =
        std::env::var("CAPI_LIB_DIR").expect("CAPI_LIB_DIR must name the folder with libcapi.a");
    println!("cargo:rerun-if-changed={folder}/libcapi.a");
    println!("cargo:rustc-link-search=native={folder}");
    println!("cargo:rustc-link-lib=static=capi");
}
