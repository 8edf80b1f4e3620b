// Where the library is: `DOLZHYTIK` names the folder of the shared one that rustc builds; or
// `WASM_C` that of libwasm_c.a, and `KIT_C` that of liblibc_c.a.
use std::env;

fn main() {
    for name in ["DOLZHYTIK", "WASM_C", "KIT_C"] {
        println!("cargo:rerun-if-env-changed={name}");
        if let Ok(folder) = env::var(name) {
            println!("cargo:rustc-link-search=native={folder}");
        }
    }
    if let Ok(folder) = env::var("DOLZHYTIK") {
        println!("cargo:rustc-link-lib=dylib=dolzhytik");
        println!("cargo:rustc-link-arg=-Wl,-rpath,{folder}");
    } else {
        println!("cargo:rustc-link-lib=static=wasm_c");
        println!("cargo:rustc-link-lib=static=libc_c");
    }
}
