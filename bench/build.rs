//! With the feature `library`, links the static library that `tools/build liblisting.a` makes.

use std::env;
use std::path::Path;

fn main() {
    println!("cargo:rerun-if-env-changed=LISTING_LIBRARY");
    if env::var_os("CARGO_FEATURE_LIBRARY").is_none() {
        return;
    }
    // bench/run sets it
    let library = env::var("LISTING_LIBRARY").expect("LISTING_LIBRARY is the path of liblisting.a");
    let folder = Path::new(&library).parent().expect("a path with a folder");
    println!("cargo:rerun-if-changed={library}");
    println!("cargo:rustc-link-search=native={}", folder.display());
    println!("cargo:rustc-link-lib=static=listing");
}
