//! Links the archives that tools/archives writes to target/archives, and the anchor.
use std::env;
use std::ffi::OsString;
use std::path::{Path, PathBuf};
use std::process::Command;

fn main() {
    let root = PathBuf::from(variable("CARGO_MANIFEST_DIR"));
    let folder = root.join("../target/archives");
    println!("cargo::rustc-link-search=native={}", folder.display());
    for name in ["lent", "lent_timer", "lent_rto"] {
        println!("cargo::rustc-link-lib=static={name}");
        println!("cargo::rerun-if-changed={}", folder.join(format!("lib{name}.a")).display());
    }
    compile_anchor(&root);
}

fn variable(name: &str) -> OsString {
    env::var_os(name).unwrap_or_else(|| panic!("cargo sets {name}"))
}

/// The anchor, by the clang that compiles the archives (tools/archives) at the same -O3, or by `cc` where the kit is not here.
/// The kit has no C headers, so `cc`, which cargo links with anyway, always does the including.
fn compile_anchor(root: &Path) {
    let (source, header) = (root.join("anchor.c"), root.join("../include/girdermoth.h"));
    for place in [&source, &header, &root.join("build.rs")] {
        println!("cargo::rerun-if-changed={}", place.display());
    }
    let out = PathBuf::from(variable("OUT_DIR"));
    let (included, object, archive) = (out.join("anchor.i"), out.join("anchor.o"), out.join("libanchor.a"));
    run(Command::new("cc").args(["-std=c11", "-E"]).arg(&source).arg("-o").arg(&included));
    let mut compiler = kit_clang().unwrap_or_else(|| Command::new("cc"));
    compiler.args(["-std=c11", "-Wall", "-Wextra", "-Werror", "-O3", "-ffp-contract=off"]);
    compiler.args(["-ffunction-sections", "-fdata-sections", "-fPIC", "-c", "-x", "cpp-output"]);
    run(compiler.arg(&included).arg("-o").arg(&object));
    run(Command::new("ar").arg("rcs").arg(&archive).arg(&object));
    println!("cargo::rustc-link-search=native={}", out.display());
    println!("cargo::rustc-link-lib=static=anchor");
}

/// The kit stands around the `rt` of the path.
fn kit_clang() -> Option<Command> {
    println!("cargo::rerun-if-env-changed=PATH");
    let rt = env::split_paths(&env::var_os("PATH")?).map(|folder| folder.join("rt")).find(|rt| rt.is_file())?;
    let clang = rt.canonicalize().ok()?.parent()?.parent()?.join("toolchain/bin/clang");
    let mut target = OsString::from("--target=");
    target.push(variable("TARGET"));
    clang.is_file().then(|| {
        let mut command = Command::new(clang);
        command.arg(target);
        command
    })
}

fn run(command: &mut Command) {
    let status = command.status().unwrap_or_else(|error| panic!("{command:?}: {error}"));
    assert!(status.success(), "{command:?} ended with {status}");
}
