//! Only the feature `calls` links anything: the static library `desk_c`,
//! looked for in the directory named by DESK_LIB_DIR.

use std::env;

fn main() {
    println!("cargo:rerun-if-env-changed=DESK_LIB_DIR");
    if env::var_os("CARGO_FEATURE_CALLS").is_none() {
        return;
    }
    if let Ok(place) = env::var("DESK_LIB_DIR") {
        println!("cargo:rustc-link-search=native={place}");
        println!("cargo:rerun-if-changed={place}/libdesk_c.a");
    }
    println!("cargo:rustc-link-lib=static=desk_c");
}
