// Links the proved static library: `./staticlib sheet`, at the top, writes it.
fn main() {
    let folder = format!("{}/../target/staticlib", env!("CARGO_MANIFEST_DIR"));
    println!("cargo:rustc-link-search=native={folder}");
    println!("cargo:rustc-link-lib=static=sheet");
    println!("cargo:rerun-if-changed={folder}/libsheet.a");
}
