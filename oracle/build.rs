//! Links the port's static library libbench_ffi.a where the feature `bench` is on. It stands where `./build bench_ffi` leaves it,
//! or in the folder that ZECHURQI_STATICLIB names.

use std::env;
use std::path::Path;

fn main() {
    println!("cargo:rerun-if-env-changed=ZECHURQI_STATICLIB");
    if env::var("CARGO_FEATURE_BENCH").is_err() {
        return;
    }
    let here = env::var("CARGO_MANIFEST_DIR").unwrap();
    let folder = env::var("ZECHURQI_STATICLIB").unwrap_or("../target/staticlib".into());
    let folder = Path::new(&here).join(folder);
    println!("cargo:rerun-if-changed={}", folder.join("libbench_ffi.a").display());
    println!("cargo:rustc-link-search=native={}", folder.display());
    println!("cargo:rustc-link-lib=static=bench_ffi");
}
