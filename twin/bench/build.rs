//! Links the proved terminal: the folder of its static library and that of the kit's C code come by the environment.

fn main() {
    for name in ["LINKED_DIR", "KIT_LIB"] {
        let folder =
            std::env::var(name).unwrap_or_else(|_| panic!("{name} is not set: run twin/measure"));
        println!("cargo:rustc-link-search=native={folder}");
        println!("cargo:rerun-if-env-changed={name}");
        println!("cargo:rerun-if-changed={folder}");
    }
    println!("cargo:rustc-link-lib=static=linked");
    println!("cargo:rustc-link-lib=static=libc_c");
}
