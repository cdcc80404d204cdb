// Own, not the crate's. Under the cfg `kani` the unchanged files leave out the methods
// `forward_overflowing` and `backward_overflowing`, which the trait Step of this rustc lacks.
fn main() {
    println!("cargo::rerun-if-changed=build.rs");
    println!("cargo::rustc-check-cfg=cfg(kani)");
    println!("cargo::rustc-cfg=kani");
}
