//! Links the port's archive, which stands in target/staticlib while this crate is built in target/oracle/driver.
fn main() {
    let folder = format!("{}/../../staticlib", std::env::var("CARGO_MANIFEST_DIR").unwrap());
    println!("cargo:rerun-if-changed={folder}/libsheet.a");
    println!("cargo:rustc-link-search=native={folder}");
    println!("cargo:rustc-link-lib=static=sheet");
}
