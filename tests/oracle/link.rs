//! Says where the library lies, and that a new one is to be linked anew.

fn main() {
    let folder = std::env::var("JETTYFIG_LIBRARY_FOLDER").expect("the folder of libjettyfig.a");
    println!("cargo:rustc-link-search=native={folder}");
    println!("cargo:rerun-if-changed={folder}/libjettyfig.a");
    println!("cargo:rerun-if-env-changed=JETTYFIG_LIBRARY_FOLDER");
}
