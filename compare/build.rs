// The library that `rt lib` made in crates/link; compare/run names its folder.
fn main() {
    let folder = std::env::var("STATICLIB").expect("STATICLIB: the folder of liblink.a");
    println!("cargo:rustc-link-search=native={folder}");
    println!("cargo:rustc-link-lib=static=link");
    println!("cargo:rerun-if-changed={folder}/liblink.a");
    println!("cargo:rerun-if-env-changed=STATICLIB");
}
