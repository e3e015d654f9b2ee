//! Links the codec's static library: the one in the folder or the PREFIX that `REAMERTAN_LIB` names, or else the one
//! that a release puts into this package, or else the one that pkg-config knows. Where there is none of the target's
//! architecture and this package's version, `src/calls.rs` gets a sentence to end the build with, since `cargo check`
//! and `cargo doc` need none.

use std::env;
use std::fs;
use std::path::{Path, PathBuf};
use std::process::Command;

use version::VERSION;

#[path = "src/version.rs"]
mod version;

const LIBRARY: &str = "libreamertan.a";

// What pkg-config is told by the environment.
const PKG_CONFIG: [&str; 3] = ["PKG_CONFIG", "PKG_CONFIG_PATH", "PKG_CONFIG_LIBDIR"];

fn main() {
    println!("cargo:rerun-if-env-changed=REAMERTAN_LIB");
    // A feature of the manifest in the folder serde.
    println!("cargo:rustc-check-cfg=cfg(feature, values(\"serde\"))");
    let named = env::var_os("REAMERTAN_LIB")
        .filter(|named| !named.is_empty())
        .map(PathBuf::from);
    let folder = match &named {
        Some(named) => in_named(named),
        None => in_package().or_else(in_pkg_config),
    };
    let fault = match &folder {
        Some(folder) => {
            link(folder);
            unfit(folder).unwrap_or_default()
        }
        None => missing(named.as_deref()),
    };
    println!("cargo:rustc-env=REAMERTAN_FAULT={fault}");
}

fn link(folder: &Path) {
    println!("cargo:rerun-if-changed={}", folder.join(LIBRARY).display());
    println!("cargo:rustc-link-search=native={}", folder.display());
    println!("cargo:rustc-link-lib=static=reamertan");
}

// What is wrong with a folder's library for this build, by its file for pkg-config where it was put in place with one.
fn unfit(folder: &Path) -> Option<String> {
    let file = folder.join("pkgconfig/reamertan.pc");
    let text = fs::read_to_string(&file).ok()?;
    println!("cargo:rerun-if-changed={}", file.display());
    let said = |word| text.lines().find_map(|line| line.strip_prefix(word));
    let place = folder.display();
    let wanted = env::var("CARGO_CFG_TARGET_ARCH").ok()?.replace('_', "-");
    let processor =
        said("processor=").filter(|found| found.split("-v").next() != Some(wanted.as_str()));
    if let Some(processor) = processor {
        return Some(format!(
            "{LIBRARY} in {place} is for {processor}, and this build is for {wanted}"
        ));
    }
    let version = said("Version: ").filter(|&found| found != VERSION)?;
    Some(format!(
        "{LIBRARY} in {place} has version {version}, and this package is for version {VERSION}"
    ))
}

fn missing(named: Option<&Path>) -> String {
    // A file that isn't there has the library looked for again at the next build.
    println!("cargo:rerun-if-changed={LIBRARY}");
    match named {
        Some(named) => format!(
            "REAMERTAN_LIB is {}, where there is neither {LIBRARY} nor lib/{LIBRARY}",
            named.display()
        ),
        None => format!(
            "there is no {LIBRARY} to link: Reamertan's `./install PREFIX` makes it, and REAMERTAN_LIB=PREFIX names it"
        ),
    }
}

// The folder of the library, by a path that begins where cargo was called or else at this file, as an editor may call it.
fn in_named(named: &Path) -> Option<PathBuf> {
    if named.is_relative() {
        println!("cargo:rerun-if-env-changed=PWD");
    }
    let called = env::var_os("PWD").map(PathBuf::from);
    let here = env::current_dir().ok();
    [called, here]
        .into_iter()
        .flatten()
        .find_map(|start| in_prefix(&start.join(named)))
}

// The folder of the library for the target's architecture, whichever C library it has.
fn in_package() -> Option<PathBuf> {
    let package = env::var_os("CARGO_MANIFEST_DIR")?;
    let architecture = env::var("CARGO_CFG_TARGET_ARCH").ok()?;
    let system = env::var("CARGO_CFG_TARGET_OS").ok()?;
    let folder = Path::new(&package).join(format!("lib/{architecture}-{system}"));
    folder.join(LIBRARY).is_file().then_some(folder)
}

fn in_prefix(prefix: &Path) -> Option<PathBuf> {
    [prefix.to_path_buf(), prefix.join("lib")]
        .into_iter()
        .find(|folder| folder.join(LIBRARY).is_file())
}

fn in_pkg_config() -> Option<PathBuf> {
    for name in PKG_CONFIG {
        println!("cargo:rerun-if-env-changed={name}");
    }
    let program = env::var("PKG_CONFIG").unwrap_or("pkg-config".into());
    let asked = Command::new(program)
        .args(["--variable=libdir", "reamertan"])
        .output()
        .ok()
        .filter(|asked| asked.status.success())?;
    let folder = String::from_utf8(asked.stdout).ok()?;
    in_prefix(Path::new(folder.trim_end()))
}
