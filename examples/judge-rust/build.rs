//! Links libg1judge.a from the folder G1JUDGE, or from where tools/build_judge.py puts it.
fn main() {
    let made = concat!(env!("CARGO_MANIFEST_DIR"), "/../../judge/out");
    let folder = std::env::var("G1JUDGE").unwrap_or_else(|_| made.to_string());
    println!("cargo:rerun-if-env-changed=G1JUDGE");
    println!("cargo:rerun-if-changed={folder}/libg1judge.a");
    println!("cargo:rustc-link-search=native={folder}");
    println!("cargo:rustc-link-lib=static=g1judge");
}
