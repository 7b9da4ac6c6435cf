//! Links libdesk.a, libdesk_tests.a and librelation_bench.a from the directory
//! ORDERSHEET_LIB_DIR, an absolute path.

fn main() {
    println!("cargo:rerun-if-env-changed=ORDERSHEET_LIB_DIR");
    if std::env::var_os("CARGO_FEATURE_MOCK").is_some() {
        return;
    }
    let Ok(directory) = std::env::var("ORDERSHEET_LIB_DIR") else {
        panic!("set ORDERSHEET_LIB_DIR to the directory of the archives, or use --features mock");
    };
    println!("cargo:rustc-link-search=native={directory}");
    for library in ["desk", "desk_tests", "relation_bench"] {
        println!("cargo:rerun-if-changed={directory}/lib{library}.a");
        println!("cargo:rustc-link-lib=static={library}");
    }
}
