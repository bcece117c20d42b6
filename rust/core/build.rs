//! Links the proved library. `tools/library` makes it; RATTLE_STATICLIB names another folder than target/staticlib.
fn main() {
    let root = std::env::var("CARGO_MANIFEST_DIR").unwrap();
    let dir = std::env::var("RATTLE_STATICLIB").unwrap_or(format!("{root}/../../target/staticlib"));
    println!("cargo::rustc-link-search=native={dir}");
    println!("cargo::rustc-link-lib=static=capi");
    println!("cargo::rerun-if-changed={dir}/libcapi.a");
    println!("cargo::rerun-if-env-changed=RATTLE_STATICLIB");
}
