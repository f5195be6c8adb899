//! Links Android's libETC1 where bench/run found it, and says so to the program.
fn main() {
    println!("cargo:rerun-if-env-changed=BENCH_ANDROID");
    println!("cargo:rustc-check-cfg=cfg(android)");
    if let Ok(folder) = std::env::var("BENCH_ANDROID") {
        println!("cargo:rustc-cfg=android");
        println!("cargo:rustc-link-search=native={folder}");
        println!("cargo:rustc-link-lib=dylib=ETC1");
        println!("cargo:rustc-link-arg=-Wl,-rpath,{folder}");
    }
}
