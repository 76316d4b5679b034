// Links the static library that `./build library` writes, and the plain loops in C.
use std::process::Command;

fn main() {
    let root = std::env::var("CARGO_MANIFEST_DIR").expect("set by cargo");
    let out = std::env::var("OUT_DIR").expect("set by cargo");
    let run = |program: &str, arguments: &[&str]| {
        assert!(Command::new(program).args(arguments).status().expect(program).success(), "{program}");
    };
    for name in ["plain", "shifts", "weave"] {
        let (source, object) = (format!("{root}/src/{name}.c"), format!("{out}/{name}.o"));
        run("gcc", &["-O3", "-march=x86-64", "-c", &source, "-o", &object]);
        run("ar", &["crs", &format!("{out}/libplain.a"), &object]);
        println!("cargo:rerun-if-changed={source}");
    }
    println!("cargo:rustc-link-search=native={out}");
    println!("cargo:rustc-link-lib=static=plain");
    println!("cargo:rustc-link-search=native={root}/../target/staticlib");
    println!("cargo:rustc-link-lib=static=sbc");
    println!("cargo:rerun-if-changed={root}/../target/staticlib/libsbc.a");
}
