//! Links the archives that tools/archive wrote, where they are asked for.
fn main() {
    if std::env::var_os("CARGO_FEATURE_ARCHIVE").is_none() {
        return;
    }
    let dir = std::env::var("CARGO_MANIFEST_DIR").unwrap() + "/../target/staticlib";
    println!("cargo:rustc-link-search=native={dir}");
    for name in ["labrador_ldpc", "measure"] {
        println!("cargo:rustc-link-lib=static={name}");
        println!("cargo:rerun-if-changed={dir}/lib{name}.a");
    }
}
