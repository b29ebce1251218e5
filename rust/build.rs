// Links libfoldflake.a from FOLDFLAKE_LIB, or from ../target/staticlib, where `tools/staticlib.sh` puts it. Where it is not there, or the build is for
// another machine, that is told and no folder is named: `cargo doc` and `cargo check` need none, and a build ends where rustc does not find the library.
use std::path::Path;

fn main() {
    println!("cargo:rerun-if-env-changed=FOLDFLAKE_LIB");
    let variable = |name: &str| std::env::var(name).unwrap_or_default();
    let folder = match variable("FOLDFLAKE_LIB") {
        named if !named.is_empty() => named,
        _ => format!("{}/../target/staticlib", variable("CARGO_MANIFEST_DIR")),
    };
    let archive = format!("{folder}/libfoldflake.a");
    println!("cargo:rerun-if-changed={archive}");
    println!("cargo:rustc-link-lib=static=foldflake");
    let target = variable("TARGET");
    if !target.starts_with("x86_64") || !target.contains("linux") {
        println!("cargo:warning=libfoldflake.a is for x86-64 Linux programs, and this build is for {target}: give cargo --target x86_64-unknown-linux-gnu");
    } else if !Path::new(&archive).is_file() {
        println!("cargo:warning=there is no {archive}: run `tools/staticlib.sh` in the repository, or set FOLDFLAKE_LIB to the folder that has it");
    } else {
        println!("cargo:rustc-link-search=native={folder}");
    }
}
