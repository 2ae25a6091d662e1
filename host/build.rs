//! Finds the archives that the crate links. Either `GIRDERMOTH_ARCHIVE` names them (one or more paths, as in `PATH`), or `rt lib` proves and writes
//! them, in the folders of their Rattle crates.

use std::env;
use std::fs;
use std::path::{Path, PathBuf};
use std::process::{Command, exit};

/// The Rattle crates whose functions are exported: the sender, the timers, the round-trip estimator.
const CRATES: [&str; 3] = ["lent", "lent_timer", "lent_rto"];

fn fail(what: &str) -> ! {
    eprintln!("girdermoth: {what}");
    exit(1)
}

/// The archive of one Rattle crate, proved and compiled.
fn prove(root: &Path, name: &str) -> PathBuf {
    let folder = root.join("crates").join(name);
    let made = match Command::new("rt").arg("lib").current_dir(&folder).output() {
        Ok(made) => made,
        Err(error) => fail(&format!(
            "cannot run `rt lib` in {}: {error}. Put the Rattle kit's `rt` on the PATH, or name the archives in GIRDERMOTH_ARCHIVE",
            folder.display()
        )),
    };
    if !made.status.success() {
        eprint!("{}{}", String::from_utf8_lossy(&made.stdout), String::from_utf8_lossy(&made.stderr));
        fail(&format!("`rt lib` in {} ended with {}", folder.display(), made.status));
    }
    folder.join("out").join(format!("lib{name}.a"))
}

/// The kit runs on x86-64 alone: there tools/archives makes the archives for Arm. What to do with them.
fn on_arm() -> String {
    let archives = CRATES.map(|name| format!("FOLDER/lib{name}.a")).join(":");
    format!(
        "the Rattle kit runs on x86-64 Linux only. There `tools/archives aarch64` makes the archives for Arm, in target/archives/aarch64. \
         Carry them here, to a folder, and name them:\n\n    export GIRDERMOTH_ARCHIVE={archives}\n"
    )
}

/// What a proof or an archive is made of: cargo runs this again where any of it changes.
fn watch(root: &Path) {
    println!("cargo::rerun-if-changed={}", root.join("crates.txt").display());
    for crate_folder in fs::read_dir(root.join("crates")).into_iter().flatten().flatten() {
        for part in ["src", "specs", "proofs"].map(|part| crate_folder.path().join(part)) {
            if part.is_dir() {
                println!("cargo::rerun-if-changed={}", part.display());
            }
        }
    }
}

fn main() {
    println!("cargo::rerun-if-env-changed=GIRDERMOTH_ARCHIVE");
    let out = PathBuf::from(env::var_os("OUT_DIR").expect("cargo sets OUT_DIR"));
    let archives: Vec<PathBuf> = match env::var_os("GIRDERMOTH_ARCHIVE") {
        Some(paths) => {
            let paths: Vec<PathBuf> = env::split_paths(&paths).collect();
            paths.iter().for_each(|path| println!("cargo::rerun-if-changed={}", path.display()));
            paths
        }
        None => {
            let here = PathBuf::from(env::var_os("CARGO_MANIFEST_DIR").expect("cargo sets CARGO_MANIFEST_DIR"));
            let Some(root) = here.parent() else { fail("the crate must stand in the repository, beside crates/") };
            let (machine, system) = (env::var("CARGO_CFG_TARGET_ARCH"), env::var("CARGO_CFG_TARGET_OS"));
            match (machine.as_deref(), system.as_deref()) {
                (Ok("x86_64"), Ok("linux")) => (),
                (Ok("aarch64"), Ok("linux")) => fail(&on_arm()),
                _ => fail("`rt lib` compiles for Linux only; name archives for another target in GIRDERMOTH_ARCHIVE"),
            }
            if !root.join("crates.txt").is_file() {
                fail(&format!("{} has no crates.txt: build in the repository, or name the archives in GIRDERMOTH_ARCHIVE", root.display()));
            }
            watch(root);
            CRATES.iter().map(|name| prove(root, name)).collect()
        }
    };
    println!("cargo::rustc-link-search=native={}", out.display());
    for (number, archive) in archives.iter().enumerate() {
        let copy = format!("girdermoth_part{number}");
        if let Err(error) = fs::copy(archive, out.join(format!("lib{copy}.a"))) {
            fail(&format!("cannot read the archive {}: {error}", archive.display()));
        }
        println!("cargo::rustc-link-lib=static={copy}");
    }
    println!("cargo::rerun-if-changed=build.rs");
}
