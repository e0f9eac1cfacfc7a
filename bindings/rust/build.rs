// Finds `libwullaphi.a`, and has the crate linked with it.

use std::env;
use std::path::{Path, PathBuf};
use std::process::{exit, Command};

const LIBRARY: &str = "libwullaphi.a";

/// The folder that `pkg-config` names, where it knows the library.
fn installed() -> Option<PathBuf> {
    let program = env::var_os("PKG_CONFIG").unwrap_or_else(|| "pkg-config".into());
    let answer = Command::new(program)
        .args(["--variable=libdir", "wullaphi"])
        .output()
        .ok()?;
    let folder = String::from_utf8(answer.stdout).ok()?;
    let named = answer.status.success() && !folder.trim().is_empty();
    named.then(|| PathBuf::from(folder.trim()))
}

/// The folder where this repository builds the library.
fn built() -> PathBuf {
    Path::new(&env::var_os("CARGO_MANIFEST_DIR").unwrap_or_default()).join("../out")
}

fn holds_library(folder: &Path) -> bool {
    folder.join(LIBRARY).is_file()
}

/// The folder of the library, or what is missing.
fn find() -> Result<PathBuf, String> {
    if let Some(folder) = env::var_os("WULLAPHI_LIB").map(PathBuf::from) {
        if holds_library(&folder) {
            return Ok(folder);
        }
        let folder = folder.display();
        return Err(format!("there is no {LIBRARY} in WULLAPHI_LIB={folder}"));
    }
    let found = installed()
        .into_iter()
        .chain([built()])
        .find(|it| holds_library(it));
    found.ok_or_else(|| {
        format!(
            "{LIBRARY} isn't found: set WULLAPHI_LIB to its folder, install it so that pkg-config \
             knows wullaphi, or build it with bindings/build.sh"
        )
    })
}

fn main() {
    println!("cargo:rerun-if-env-changed=WULLAPHI_LIB");
    println!("cargo:rerun-if-env-changed=PKG_CONFIG");
    println!("cargo:rerun-if-env-changed=PKG_CONFIG_PATH");
    match find() {
        Ok(folder) => {
            println!("cargo:rerun-if-changed={}", folder.join(LIBRARY).display());
            println!("cargo:rustc-link-search=native={}", folder.display());
            println!("cargo:rustc-link-lib=static=wullaphi");
        }
        Err(why) => {
            eprintln!("wullaphi: {why}");
            exit(1);
        }
    }
}
