//! Links the static library. GURANDEPI_LIB names the folder that has it; else it is taken from the repository, and built by
//! `rt lib` in crates/gurandepi_c where it is not there or older than its sources. Where it is not to be had the crate is compiled
//! all the same, for `cargo check`; only what calls it does not link.
use std::path::{Path, PathBuf};
use std::process::Command;
use std::time::SystemTime;
use std::{env, fs};

fn main() {
    println!("cargo:rerun-if-env-changed=GURANDEPI_LIB");
    println!("cargo:rustc-check-cfg=cfg(linked)");
    // The library is for this target alone. `linked` tells the tests and the examples whether they are to be run.
    if env::var("CARGO_CFG_TARGET_ARCH").unwrap() != "x86_64" || env::var("CARGO_CFG_TARGET_OS").unwrap() != "linux" {
        return;
    }
    println!("cargo:rustc-cfg=linked");
    let Some(folder) = env::var_os("GURANDEPI_LIB").map(PathBuf::from).or_else(from_repository) else {
        println!("cargo:warning=the static library is not built, or old, and there is no `rt` to build it: set GURANDEPI_LIB to its folder");
        return;
    };
    println!("cargo:rerun-if-changed={}", folder.join("libgurandepi.a").display());
    println!("cargo:rustc-link-search=native={}", folder.display());
    println!("cargo:rustc-link-lib=static=gurandepi");
}

fn from_repository() -> Option<PathBuf> {
    let top = Path::new(&env::var_os("CARGO_MANIFEST_DIR").unwrap()).parent().unwrap().to_path_buf();
    let folder = top.join("target/staticlib");
    println!("cargo:rerun-if-changed={}", top.join("crates").display());
    println!("cargo:rerun-if-changed={}", top.join("crates.txt").display());
    let sources = newest(&top.join("crates")).max(newest(&top.join("crates.txt")));
    if changed(&folder.join("libgurandepi.a")).map_or(true, |built| built < sources) {
        let crate_folder = top.join("crates/gurandepi_c");
        let said = Command::new("rt").arg("lib").current_dir(&crate_folder).output().ok()?;
        assert!(
            said.status.success(),
            "rt lib in crates/gurandepi_c:\n{}{}",
            String::from_utf8_lossy(&said.stdout),
            String::from_utf8_lossy(&said.stderr)
        );
        fs::create_dir_all(&folder).unwrap();
        fs::copy(crate_folder.join("out/libgurandepi_c.a"), folder.join("libgurandepi.a")).unwrap();
    }
    Some(folder)
}

fn changed(path: &Path) -> Option<SystemTime> {
    fs::metadata(path).and_then(|about| about.modified()).ok()
}

/// The last change of a file, or of any in a folder, but for what `rt` keeps in the folders out.
fn newest(path: &Path) -> SystemTime {
    let entries = fs::read_dir(path).into_iter().flatten().flatten().filter(|entry| entry.file_name() != "out");
    let below = entries.map(|entry| newest(&entry.path()));
    let own = if path.is_file() { changed(path) } else { None };
    below.chain(own).max().unwrap_or(SystemTime::UNIX_EPOCH)
}
