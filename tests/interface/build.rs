//! Links what `run` names: the object file of calls.c, and the engine's archive.

fn main() {
    for variable in ["INTERFACE_CALLS", "INTERFACE_ENGINE"] {
        println!("cargo:rerun-if-env-changed={variable}");
        if let Ok(path) = std::env::var(variable) {
            println!("cargo:rerun-if-changed={path}");
            println!("cargo:rustc-link-arg={path}");
        }
    }
}
