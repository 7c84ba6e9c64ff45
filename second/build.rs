//! Links the proved library where the feature asks for it: its folder is in ARCHIVE.
fn main() {
    println!("cargo:rerun-if-env-changed=ARCHIVE");
    if std::env::var("CARGO_FEATURE_PROVED").is_ok() {
        let folder = std::env::var("ARCHIVE").expect("ARCHIVE names the folder of libhost.a");
        println!("cargo:rerun-if-changed={folder}/libhost.a");
        println!("cargo:rustc-link-search=native={folder}");
        println!("cargo:rustc-link-lib=static=host");
    }
}
