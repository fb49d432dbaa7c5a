//! Finds the archive that holds the library, or has it built, and links it.

use std::env;
use std::fs;
use std::path::{Path, PathBuf};
use std::process::{exit, Command};

const VARIABLE: &str = "SENDURAFI_ARCHIVE";
const BUILT: &str = "target/staticlib/libsendurafi.a";

fn main() {
    match link() {
        Ok(()) => (),
        Err(sentence) => {
            eprintln!("sendurafi: {}", sentence);
            exit(1);
        }
    }
}

fn link() -> Result<(), String> {
    println!("cargo:rerun-if-changed=build.rs");
    println!("cargo:rerun-if-env-changed={}", VARIABLE);
    let arch = env::var("CARGO_CFG_TARGET_ARCH").unwrap_or_default();
    if arch != "x86_64" {
        return Err(format!(
            "the archive is x86-64 code and cannot be linked for {}; \
             build for x86_64-unknown-linux-gnu (tools/test-client shows how)",
            arch
        ));
    }
    let archive = archive()?;
    println!("cargo:rerun-if-changed={}", archive.display());
    // Copied, so that the archive may have any name.
    let out = PathBuf::from(env::var_os("OUT_DIR").ok_or("cargo has set no OUT_DIR")?);
    fs::copy(&archive, out.join("libsendurafi.a"))
        .map_err(|e| format!("cannot copy {}: {}", archive.display(), e))?;
    println!("cargo:rustc-link-search=native={}", out.display());
    println!("cargo:rustc-link-lib=static=sendurafi");
    Ok(())
}

fn archive() -> Result<PathBuf, String> {
    if let Some(given) = env::var_os(VARIABLE) {
        let given = PathBuf::from(given);
        return if given.is_file() {
            Ok(given)
        } else {
            Err(format!("{} names {}, and there is no such file", VARIABLE, given.display()))
        };
    }
    let here = PathBuf::from(env::var_os("CARGO_MANIFEST_DIR").ok_or("cargo has set no folder")?);
    let root = here.join("../..");
    let built = root.join(BUILT);
    if !built.is_file() {
        build(&root)?;
    }
    if built.is_file() {
        Ok(built)
    } else {
        Err(format!("tools/archive ended well but left no {}", built.display()))
    }
}

/// Proves and compiles the library, which takes some minutes.
fn build(root: &Path) -> Result<(), String> {
    let help = format!(
        "Build the archive with tools/archive at the root of the repository, which needs rt, \
         or set {} to the path of a libsendurafi.a.",
        VARIABLE
    );
    if !root.join("crates/sendurafi").is_dir() {
        return Err(format!("there is no {}, and no library to build beside it. {}", BUILT, help));
    }
    let ran = Command::new(root.join("tools/archive")).output();
    match ran {
        Ok(output) if output.status.success() => Ok(()),
        Ok(output) => Err(format!(
            "there is no {}, and tools/archive failed ({}). {}\n{}{}",
            BUILT,
            output.status,
            help,
            String::from_utf8_lossy(&output.stdout),
            String::from_utf8_lossy(&output.stderr)
        )),
        Err(e) => {
            Err(format!("there is no {}, and tools/archive cannot be run ({}). {}", BUILT, e, help))
        }
    }
}
