//! Links the static library: `VOGRILAS_LIB_DIR` is the folder of `libvogrilas.a`, as `bindings/make` lays it out.

fn main() {
    println!("cargo:rerun-if-env-changed=VOGRILAS_LIB_DIR");
    if let Ok(folder) = std::env::var("VOGRILAS_LIB_DIR") {
        println!("cargo:rustc-link-search=native={folder}");
        println!("cargo:rerun-if-changed={folder}/libvogrilas.a");
    }
    println!("cargo:rustc-link-lib=static=vogrilas");
}
