//! Says where the static library is: the folder that MORE1090_LIB_DIR names; the lib of the installed tree that this crate stands
//! in; or the repository's target/lib.
use std::env;
use std::path::PathBuf;

const LIBRARY: &str = "libmore1090.a";

fn main() {
    println!("cargo:rerun-if-env-changed=MORE1090_LIB_DIR");
    let here = PathBuf::from(env::var_os("CARGO_MANIFEST_DIR").expect("cargo sets it"));
    let places = match env::var_os("MORE1090_LIB_DIR") {
        Some(named) => vec![PathBuf::from(named)],
        None => vec![here.join("../../../lib"), here.join("../../target/lib")],
    };
    let Some(folder) = places.iter().find(|place| place.join(LIBRARY).is_file()) else {
        panic!("{LIBRARY} is in none of {places:?}; MORE1090_LIB_DIR may name its folder");
    };
    println!("cargo:rerun-if-changed={}", folder.join(LIBRARY).display());
    println!("cargo:rustc-link-search=native={}", folder.display());
    println!("cargo:rustc-link-lib=static=more1090");
}
