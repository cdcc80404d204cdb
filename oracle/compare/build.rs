//! Links the port: the static library libwuohtan.a from the folder that WUOHTAN_LIB names (absolute,
//! or from this folder), by default the repository's target/lib.

use std::env;
use std::path::PathBuf;

fn main() {
    let own = PathBuf::from(env::var_os("CARGO_MANIFEST_DIR").expect("set by cargo"));
    let folder = env::var_os("WUOHTAN_LIB").unwrap_or_else(|| "../../target/lib".into());
    let folder = own.join(folder);
    let library = folder.join("libwuohtan.a");

    println!("cargo::rerun-if-env-changed=WUOHTAN_LIB");
    println!("cargo::rerun-if-changed={}", library.display());
    if !library.is_file() {
        println!(
            "cargo::error=there is no {}: make it with `./lib`, or name its folder in WUOHTAN_LIB",
            library.display()
        );
        return;
    }
    println!("cargo::rustc-link-search=native={}", folder.display());
    println!("cargo::rustc-link-lib=static=wuohtan");
}
