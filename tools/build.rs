//! Links the tool's static library, `libplacement.a`, from the folder that RATTLE_STATICLIB names.
//! Without it only what does not call the tool can be built, such as the unit tests.

fn main() {
    println!("cargo:rerun-if-env-changed=RATTLE_STATICLIB");
    let Ok(folder) = std::env::var("RATTLE_STATICLIB") else {
        return;
    };
    println!("cargo:rustc-link-search=native={folder}");
    println!("cargo:rustc-link-lib=static=placement");
    println!("cargo:rerun-if-changed={folder}/libplacement.a");
}
