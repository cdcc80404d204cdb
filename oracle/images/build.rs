//! With the feature `library`, links the port as the crate `compare` does: libwuohtan.a from the
//! folder that WUOHTAN_LIB names, by default the repository's target/lib.

use std::env;
use std::path::PathBuf;

fn main() {
    println!("cargo::rerun-if-env-changed=WUOHTAN_LIB");
    if env::var_os("CARGO_FEATURE_LIBRARY").is_none() {
        return;
    }
    let own = PathBuf::from(env::var_os("CARGO_MANIFEST_DIR").expect("set by cargo"));
    let folder = env::var_os("WUOHTAN_LIB").unwrap_or_else(|| "../../target/lib".into());
    let folder = own.join(folder);
    let library = folder.join("libwuohtan.a");

    println!("cargo::rerun-if-changed={}", library.display());
    if !library.is_file() {
        let place = library.display();
        println!("cargo::error=there is no {place}: make it with `./lib`");
        return;
    }
    println!("cargo::rustc-link-search=native={}", folder.display());
    println!("cargo::rustc-link-lib=static=wuohtan");
}
