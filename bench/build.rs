//! Compiles the calls into OpenCV and leptonica and links those libraries, and links
//! another build of this one, each only where its feature is on.

use std::path::{Path, PathBuf};
use std::process::Command;

fn out() -> PathBuf {
    PathBuf::from(std::env::var("OUT_DIR").expect("cargo sets OUT_DIR"))
}

/// Runs a command, which has to succeed.
fn run(name: &str, arguments: &[&str]) {
    let status = Command::new(name).args(arguments).status();
    let status = status.unwrap_or_else(|error| panic!("{name}: {error}"));
    assert!(status.success(), "{name} {arguments:?}: {status}");
}

/// Links an archive that stands in OUT_DIR.
fn link(name: &str) {
    link_as("static", name);
}

fn link_as(kind: &str, name: &str) {
    println!("cargo:rustc-link-search=native={}", out().display());
    println!("cargo:rustc-link-lib={kind}={name}");
}

/// An archive of one source file in other/, with these flags.
fn archive(compiler: &str, source: &str, flags: &[&str], name: &str) {
    let object = out().join(format!("{name}.o")).display().to_string();
    let library = out().join(format!("lib{name}.a")).display().to_string();
    let fixed = ["-O3", "-fPIC", "-c", source, "-o", &object];
    run(compiler, &[&fixed, flags].concat());
    run("ar", &["rcs", &library, &object]);
    link(name);
}

/// The global symbols that an archive in OUT_DIR defines.
fn symbols(archive: &str) -> Vec<String> {
    let arguments = ["--extern-only", "--defined-only", "--format=posix", archive];
    let listed = Command::new("nm")
        .args(arguments)
        .current_dir(out())
        .output();
    let listed = listed.unwrap_or_else(|error| panic!("nm: {error}"));
    assert!(listed.status.success(), "nm {archive}: {}", listed.status);
    let text = String::from_utf8(listed.stdout).expect("names of symbols are text");
    // A symbol's line has its kind after the name; one that names an object has one word.
    let words = text.lines().map(|line| line.split_whitespace().collect());
    let symbols = words.filter(|words: &Vec<&str>| words.len() > 1);
    symbols.map(|words| words[0].to_string()).collect()
}

/// A copy of the library's archive in OUT_DIR, in which every function starts at a multiple
/// of 64 bytes. A loop is some hundredths quicker or slower for where it stands, and of two
/// builds neither is to be the luckier.
fn copy(given: &str, name: &str) -> PathBuf {
    println!("cargo:rerun-if-changed={given}");
    let copy = out().join(name);
    let bytes = std::fs::read(given).unwrap_or_else(|error| panic!("{given}: {error}"));
    std::fs::write(&copy, bytes).expect("OUT_DIR can be written");
    let option = "--set-section-alignment=.text.*=64";
    run("objcopy", &[option, &copy.display().to_string()]);
    copy
}

/// Another build of the library beside this one. Every global symbol that it defines has
/// `before_` set before its name; what it needs of libc keeps its own.
fn before() {
    println!("cargo:rerun-if-env-changed=MUSQ_BEFORE");
    let given = std::env::var("MUSQ_BEFORE").unwrap_or_default();
    assert!(
        Path::new(&given).is_file(),
        "the feature before wants the environment variable MUSQ_BEFORE to name a file, the \
         archive libexports.a of another build of the library; it is {given:?}"
    );
    let archive = "libbench_before.a";
    let copied = copy(&given, archive).display().to_string();
    let names = symbols(archive);
    let has = |name: &str| names.iter().any(|one| one == name);
    assert!(has("musq_part"), "{given} has no musq_part");
    let lines = names.iter().map(|name| format!("{name} before_{name}\n"));
    let list = out().join("before.txt");
    std::fs::write(&list, lines.collect::<String>()).expect("OUT_DIR can be written");
    let list = format!("--redefine-syms={}", list.display());
    run("objcopy", &[&list, &copied]);
    link("bench_before");
    // Linked as a whole it defines the library's calls before the tests' archive is asked.
    copy("../target/staticlib/libexports.a", "libbench_library.a");
    link_as("static:+whole-archive", "bench_library");
}

fn main() {
    println!("cargo:rerun-if-changed=build.rs");
    println!("cargo:rerun-if-changed=other");
    if std::env::var_os("CARGO_FEATURE_BEFORE").is_some() {
        before();
    }
    if std::env::var_os("CARGO_FEATURE_OPENCV").is_some() {
        let flags = ["-std=c++17", "-I/usr/include/opencv4"];
        archive("c++", "other/opencv.cpp", &flags, "bench_opencv");
        for library in ["opencv_imgproc", "opencv_core", "stdc++"] {
            println!("cargo:rustc-link-lib=dylib={library}");
        }
    }
    if std::env::var_os("CARGO_FEATURE_LEPTONICA").is_some() {
        archive("cc", "other/leptonica.c", &["-std=c11"], "bench_leptonica");
        println!("cargo:rustc-link-lib=dylib=lept");
    }
}
