//! Links the library and the kit's C library. ROHCFN_LIBRARY is the folder of librohcfn_c.a, ROHCFN_C_LIBRARY that of liblibc_c.a.

fn main() {
    for name in ["ROHCFN_LIBRARY", "ROHCFN_C_LIBRARY"] {
        println!("cargo:rerun-if-env-changed={name}");
        match std::env::var(name) {
            Ok(folder) => println!("cargo:rustc-link-search=native={folder}"),
            Err(_) => panic!("the variable {name} names no folder"),
        }
    }
    println!("cargo:rustc-link-lib=static=rohcfn_c");
    println!("cargo:rustc-link-lib=static=libc_c");
}
