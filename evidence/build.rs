//! With the feature `proved`, links libyay.a from YAY_LIB_DIR, or from where `make yay` has it made.

fn main() {
    println!("cargo:rerun-if-env-changed=YAY_LIB_DIR");
    if std::env::var_os("CARGO_FEATURE_PROVED").is_none() {
        return;
    }
    let here = std::env::var("CARGO_MANIFEST_DIR").expect("cargo sets it");
    let folder = std::env::var("YAY_LIB_DIR").unwrap_or(format!("{here}/../build/lib"));
    println!("cargo:rustc-link-search=native={folder}");
    println!("cargo:rustc-link-lib=static=yay");
    println!("cargo:rerun-if-changed={folder}/libyay.a");
}
