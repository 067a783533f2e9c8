// SPDX-License-Identifier: MIT
//! Links the static library: IMAGO_LIB is the folder that has it and the C parts that it calls.

fn main() {
    println!("cargo:rerun-if-env-changed=IMAGO_LIB");
    let Ok(folder) = std::env::var("IMAGO_LIB") else {
        panic!(
            "IMAGO_LIB isn't set: it names the folder with libimago_c.a, which `rt lib` makes in crates/imago_c, and \
             with libos_c.a and liblibc_c.a of the toolchain. tools/install PREFIX makes such a folder, PREFIX/lib"
        );
    };
    println!("cargo:rustc-link-search=native={folder}");
    for library in ["imago_c", "os_c", "libc_c"] {
        println!("cargo:rustc-link-lib=static={library}");
    }
}
