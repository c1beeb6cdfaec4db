//! Links the engine's static library if JUBAXENDI_LIB names its folder.

fn main() {
    println!("cargo:rustc-check-cfg=cfg(engine)");
    println!("cargo:rerun-if-env-changed=JUBAXENDI_LIB");
    if let Ok(folder) = std::env::var("JUBAXENDI_LIB") {
        println!("cargo:rustc-cfg=engine");
        println!("cargo:rustc-link-search=native={folder}");
        println!("cargo:rustc-link-lib=static=jubaxendi");
        println!("cargo:rerun-if-changed={folder}/libjubaxendi.a");
    }
}
