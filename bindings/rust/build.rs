// Links the static library that `tools/staticlib` writes. NIBHARROW_LIB_DIR names another
// folder that holds it.
use std::env;
use std::path::PathBuf;

fn main() {
    let folder = match env::var_os("NIBHARROW_LIB_DIR") {
        Some(folder) => PathBuf::from(folder),
        None => {
            PathBuf::from(env::var_os("CARGO_MANIFEST_DIR").unwrap()).join("../../target/staticlib")
        }
    };
    let library = folder.join("libnibharrow.a");
    println!("cargo:rerun-if-env-changed=NIBHARROW_LIB_DIR");
    println!("cargo:rerun-if-changed={}", library.display());
    if !library.is_file() {
        panic!(
            "{} is not there: run `tools/staticlib` first",
            library.display()
        );
    }
    println!("cargo:rustc-link-search=native={}", folder.display());
    println!("cargo:rustc-link-lib=static=nibharrow");
    // for the tests, which link C programs
    println!("cargo:rustc-env=NIBHARROW_LIBRARY={}", library.display());
}
