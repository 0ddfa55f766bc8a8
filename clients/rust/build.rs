//! Links the static library `libffi_rkyv.a` and the C functions of `../c`, which it compiles.
//!
//! `HODKHAKI_LIBRARY` is the library's path. If it isn't set, the library is expected where `rt lib`
//! leaves it, in `../../crates/ffi_rkyv/out`. If it isn't there, `cargo check`, `cargo clippy` and
//! `cargo doc` work, building fails, and a warning says how to give the path.
//!
//! In a release, the crate itself has the C functions in `c` and the library in `lib`.
//!
//! The library is for x86-64 Linux. For another target, a path in `HODKHAKI_LIBRARY` is an error. If it
//! isn't set, the same commands work, building fails, and a warning names the target.
//!
//! `CC` and `AR` are the commands of the C compiler and the archiver, `cc` and `ar` by default.
//! `CFLAGS` has options of the compiler. The words of each are separated by spaces. A build for
//! another target than this machine needs `CC`.

use std::env;
use std::fmt::Display;
use std::path::{Path, PathBuf};
use std::process::{exit, Command};

const VARIABLE: &str = "HODKHAKI_LIBRARY";

fn fail(text: impl Display) -> ! {
    eprintln!("{text}");
    exit(1)
}

fn run(command: &mut Command) {
    match command.status() {
        Ok(status) if status.success() => {}
        Ok(status) => fail(format_args!("{command:?}: {status}")),
        Err(error) => fail(format_args!("{command:?}: {error}")),
    }
}

/// The words of an environment variable. There are none if it isn't set.
fn words(variable: &str) -> Vec<String> {
    println!("cargo::rerun-if-env-changed={variable}");
    match env::var(variable) {
        Ok(text) => text.split_whitespace().map(String::from).collect(),
        Err(env::VarError::NotPresent) => Vec::new(),
        Err(error) => fail(format_args!("{variable}: {error}")),
    }
}

/// The command in the variable, or the default one.
fn command(variable: &str, default: &str) -> Command {
    let words = words(variable);
    let (program, arguments) = match words.split_first() {
        Some((program, arguments)) => (program.as_str(), arguments),
        None => (default, &[][..]),
    };
    let mut command = Command::new(program);
    command.args(arguments);
    command
}

/// The target that the crate is built for.
fn target() -> String {
    env::var("TARGET").unwrap()
}

/// Whether the library is for the target: x86-64 Linux with pointers of 64 bits, as `hodkhaki.c` needs.
fn is_for_target() -> bool {
    let is = |property: &str, value: &str| {
        env::var(format!("CARGO_CFG_TARGET_{property}")).is_ok_and(|of| of == value)
    };
    is("ARCH", "x86_64") && is("OS", "linux") && is("POINTER_WIDTH", "64")
}

/// Fails if the default compiler would compile for another target than that of the crate.
fn check_compiler() {
    let target = target();
    if target != env::var("HOST").unwrap() && words("CC").is_empty() {
        fail(format_args!(
            "the target is {target}: set CC to the command of a C compiler for it, and AR if needed"
        ));
    }
}

/// A path in the crate, if it is there: a release has its C files and its library in the crate.
fn released(here: &Path, path: &str) -> Option<PathBuf> {
    Some(here.join(path)).filter(|path| path.exists())
}

/// The library's absolute path, or `None` if it isn't given, and isn't built or isn't for the target.
fn library(here: &Path) -> Option<PathBuf> {
    println!("cargo::rerun-if-env-changed={VARIABLE}");
    let given = env::var_os(VARIABLE).filter(|path| !path.is_empty());
    let path = match &given {
        Some(path) if !is_for_target() => fail(format_args!(
            "{VARIABLE}={}: libffi_rkyv.a is for x86-64 Linux alone, and the target is {}",
            Path::new(path).display(),
            target()
        )),
        Some(path) => PathBuf::from(path),
        None if !is_for_target() => return None,
        None => released(here, "lib/libffi_rkyv.a")
            .unwrap_or_else(|| here.join("../../crates/ffi_rkyv/out/libffi_rkyv.a")),
    };
    println!("cargo::rerun-if-changed={}", path.display());
    match path.canonicalize() {
        Ok(path) => Some(path),
        Err(error) if given.is_some() => {
            fail(format_args!("{VARIABLE}={}: {error}", path.display()))
        }
        Err(_) => None,
    }
}

/// Compiles the C functions to a static library in `out`.
fn compile(sources: &Path, out: &Path) {
    check_compiler();
    let archive = out.join("libhodkhaki_calls.a");
    let mut archiver = command("AR", "ar");
    archiver.arg("crs").arg(&archive);
    for name in ["hodkhaki", "memory"] {
        let source = sources.join(name).with_extension("c");
        let object = out.join(name).with_extension("o");
        println!("cargo::rerun-if-changed={}", source.display());
        println!(
            "cargo::rerun-if-changed={}",
            source.with_extension("h").display()
        );
        let mut compiler = command("CC", "cc");
        compiler.args(["-std=c11", "-O2", "-fPIC"]);
        compiler.args(words("CFLAGS"));
        run(compiler.arg("-c").arg(&source).arg("-o").arg(&object));
        archiver.arg(&object);
    }
    let _ = std::fs::remove_file(&archive);
    run(&mut archiver);
}

fn main() {
    let here = PathBuf::from(env::var_os("CARGO_MANIFEST_DIR").unwrap());
    let out = PathBuf::from(env::var_os("OUT_DIR").unwrap());
    println!("cargo::rerun-if-changed=build.rs");
    let Some(library) = library(&here) else {
        if is_for_target() {
            println!(
                "cargo::warning=libffi_rkyv.a is not built, so programs cannot be linked. \
                 Run `rt lib` in crates/ffi_rkyv, or set {VARIABLE} to the path of the library."
            );
        } else {
            println!(
                "cargo::warning=libffi_rkyv.a is for x86-64 Linux alone, so programs for {} cannot \
                 be linked.",
                target()
            );
        }
        // Building then fails with one error, and not with one for each call.
        println!("cargo::rustc-link-lib=static:+verbatim=libffi_rkyv.a");
        return;
    };
    let sources = released(&here, "c").unwrap_or_else(|| here.join("../c"));
    compile(&sources, &out);
    let folder = library.parent().expect("the path of a file has a parent");
    let name = library.file_name().expect("the path of a file has a name");
    println!("cargo::rustc-link-search=native={}", out.display());
    println!("cargo::rustc-link-search=native={}", folder.display());
    println!("cargo::rustc-link-lib=static=hodkhaki_calls");
    println!(
        "cargo::rustc-link-lib=static:+verbatim={}",
        Path::new(name).display()
    );
}
