use std::process::Command;

fn main() {
    let root = std::env::var("CARGO_MANIFEST_DIR").unwrap();
    let out = std::env::var("OUT_DIR").unwrap();
    let folder = format!("{root}/../crates/bench_exports/out");
    println!("cargo:rustc-link-search=native={folder}");
    println!("cargo:rustc-link-lib=static=bench_exports");
    println!("cargo:rerun-if-changed={folder}/libbench_exports.a");

    let source = format!("{root}/src/gnu_tree.cpp");
    let object = format!("{out}/gnu_tree.o");
    let archive = format!("{out}/libgnu_tree.a");
    run("g++", &["-O3", "-std=c++17", "-c", &source, "-o", &object]);
    run("ar", &["rcs", &archive, &object]);
    println!("cargo:rustc-link-search=native={out}");
    println!("cargo:rustc-link-lib=static=gnu_tree");
    println!("cargo:rustc-link-lib=stdc++");
    println!("cargo:rerun-if-changed={source}");
}

fn run(program: &str, arguments: &[&str]) {
    assert!(Command::new(program).args(arguments).status().unwrap().success(), "{program} failed");
}
