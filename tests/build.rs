// Links the static libraries that tests/libraries builds.
fn main() {
    let root = std::env::var("CARGO_MANIFEST_DIR").unwrap();
    let libraries = format!("{root}/../target/staticlib");
    println!("cargo:rustc-link-search=native={libraries}");
    for name in ["integer_export", "inputs_export", "deqbaryn"] {
        println!("cargo:rustc-link-lib=static={name}");
        println!("cargo:rerun-if-changed={libraries}/lib{name}.a");
    }
}
