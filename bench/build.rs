//! Where the archive of `rt lib` in crates/czsc_c lies.
fn main() {
    let top = std::path::Path::new(env!("CARGO_MANIFEST_DIR")).join("../crates/czsc_c/out");
    println!("cargo:rustc-link-search=native={}", top.display());
    println!(
        "cargo:rerun-if-changed={}",
        top.join("libczsc_c.a").display()
    );
}
