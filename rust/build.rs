//! Links the archive of the proved library.
//!
//! `NZD_ARCHIVE` is its path (`lib/libnzd.a` of an installed library); without that it is `crates/capi/out/libcapi.a` of
//! the repository, where `rt lib --cpu=x86-64` in `crates/capi` writes it.

use std::path::{Path, PathBuf};
use std::{env, fs, process};

const VARIABLE: &str = "NZD_ARCHIVE";

fn main() {
    println!("cargo:rerun-if-env-changed={VARIABLE}");
    let standard = Path::new(env!("CARGO_MANIFEST_DIR")).join("../crates/capi/out/libcapi.a");
    let archive = env::var_os(VARIABLE).map_or(standard, PathBuf::from);
    println!("cargo:rerun-if-changed={}", archive.display());
    let [arch, os] = ["ARCH", "OS"].map(|part| env::var(format!("CARGO_CFG_TARGET_{part}")).unwrap_or_default());
    if (arch.as_str(), os.as_str()) != ("x86_64", "linux") {
        fail(&format!("the proved library is for x86_64 linux, and the target is {arch} {os}"));
    }
    let found = archive.canonicalize().ok().filter(|path| path.is_file());
    let Some((folder, name)) = found.as_deref().and_then(|path| Some((path.parent()?, path.file_name()?.to_str()?)))
    else {
        let makes = "run `rt lib --cpu=x86-64` in the repository's crates/capi, or name an archive in";
        fail(&format!("no archive at {}: {makes} {VARIABLE}", archive.display()));
    };
    if !is_ours(&folder.join(name)) {
        fail(&format!("{} is no archive of the proved library: {VARIABLE} names libnzd.a", archive.display()));
    }
    println!("cargo:rustc-link-search=native={}", folder.display());
    println!("cargo:rustc-link-lib=static:+verbatim={name}");
}

/// Whether the file is an archive with a function of ours.
fn is_ours(path: &Path) -> bool {
    let name = b"nzd_normalize\0";
    fs::read(path).is_ok_and(|bytes| bytes.starts_with(b"!<arch>\n") && bytes.windows(name.len()).any(|at| at == name))
}

fn fail(message: &str) -> ! {
    eprintln!("nzd: {message}");
    process::exit(1);
}
