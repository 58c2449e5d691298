//! Links libkuspveli.a: from the folder that KUSPVELI_OUT names, else from lib where a release has it, else from that in which
//! the clone's build leaves it. Where there is none it says what builds one.

use std::path::{Path, PathBuf};
use std::process::exit;

const ARCHIVE: &str = "libkuspveli.a";
const BUILDS: &str =
    "tools/build_library proves and builds it, tools/build_library --unproved builds it without proofs in minutes";

fn main() {
    println!("cargo:rerun-if-env-changed=KUSPVELI_OUT");
    let own = Path::new(env!("CARGO_MANIFEST_DIR"));
    let named = std::env::var_os("KUSPVELI_OUT").map(PathBuf::from);
    let folders = named.map_or_else(
        || {
            ["lib", "lib/unproved", "../../out", "../../out/unproved"]
                .map(|folder| own.join(folder))
                .to_vec()
        },
        |folder| vec![folder],
    );
    for folder in &folders {
        println!("cargo:rerun-if-changed={}", folder.join(ARCHIVE).display());
    }
    let folder = folders.iter().find(|folder| folder.join(ARCHIVE).is_file()).unwrap_or_else(|| {
        let sought: Vec<String> = folders
            .iter()
            .map(|folder| folder.display().to_string())
            .collect();
        eprintln!("kuspveli: {ARCHIVE} is not there: {BUILDS}, and KUSPVELI_OUT names another folder (sought in {})", sought.join(", "));
        exit(1);
    });
    if folder.ends_with("unproved") || folder.join("kuspveli/out/unproved").is_dir() {
        println!(
            "cargo:warning=unproved: {}; tools/build_library proves and builds it",
            folder.join(ARCHIVE).display()
        );
    }
    println!("cargo:rustc-link-search=native={}", folder.display());
    println!("cargo:rustc-link-lib=static=kuspveli");
}
