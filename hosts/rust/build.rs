// Links the program with the static libraries that WICKERHERON_LIBRARIES names, in order, split by colons.
fn main() {
    println!("cargo:rerun-if-changed=build.rs");
    println!("cargo:rerun-if-env-changed=WICKERHERON_LIBRARIES");
    let named = std::env::var("WICKERHERON_LIBRARIES").unwrap_or_default();
    for path in named.split(':').filter(|path| !path.is_empty()) {
        println!("cargo:rerun-if-changed={path}");
        println!("cargo:rustc-link-arg-bins={path}");
    }
}
