//! Links the proved library. `host/build` makes it; JUNTIQEL_LIBHOST names another place of the archive.

use std::env;
use std::path::{Path, PathBuf};

const PLACE: &str = "../../target/staticlib/libhost.a";

fn main() {
    println!("cargo:rerun-if-env-changed=JUNTIQEL_LIBHOST");
    let here = env::var_os("CARGO_MANIFEST_DIR").expect("cargo names the crate's folder");
    let archive = match env::var_os("JUNTIQEL_LIBHOST") {
        Some(path) => PathBuf::from(path),
        None => Path::new(&here).join(PLACE),
    };
    let Ok(archive) = archive.canonicalize() else {
        panic!(
            "{} is not there: make it with `host/build`",
            archive.display()
        );
    };
    let folder = archive.parent().expect("a file stands in a folder");
    let name = archive
        .file_stem()
        .and_then(|stem| stem.to_str())
        .and_then(|stem| stem.strip_prefix("lib"))
        .expect("the archive is called libNAME.a");
    println!("cargo:rerun-if-changed={}", archive.display());
    println!("cargo:rustc-link-search=native={}", folder.display());
    println!("cargo:rustc-link-lib=static={name}");
}
