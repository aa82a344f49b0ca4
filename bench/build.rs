//! Links the static library of the crate `measured`, which `bench/run` has built, and the C part of the kit's library.

use std::env;

fn main() {
    for (variable, library) in [("MEASURED_FOLDER", "measured"), ("KIT_FOLDER", "libc_c")] {
        println!("cargo:rerun-if-env-changed={variable}");
        let folder = env::var(variable).unwrap_or_else(|_| panic!("bench/run sets {variable}"));
        println!("cargo:rerun-if-changed={folder}/lib{library}.a");
        println!("cargo:rustc-link-search=native={folder}");
        println!("cargo:rustc-link-lib=static={library}");
    }
}
