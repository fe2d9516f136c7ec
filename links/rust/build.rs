//! Finds the archive and has it linked: the one that TRACK_ARCHIVE names, else the one that `./library`
//! built in the repository of this package, else the one that was installed with this package.

use std::env;
use std::path::{Path, PathBuf};
use std::process::exit;

fn main() {
    println!("cargo:rerun-if-env-changed=TRACK_ARCHIVE");
    let Some(archive) = places().into_iter().find(|place| place.is_file()) else {
        let tried: Vec<_> = places()
            .iter()
            .map(|place| place.display().to_string())
            .collect();
        let tried = tried.join(" or ");
        eprintln!(
            "track: there is no archive at {tried}: build it with ./library in the estimator's repository, \
             or set TRACK_ARCHIVE to its path"
        );
        exit(1);
    };
    println!("cargo:rerun-if-changed={}", archive.display());
    let machine = env::var("CARGO_CFG_TARGET_ARCH").unwrap_or_default();
    if machine != "x86_64" {
        println!("cargo:warning=the archive is for x86-64: a program for {machine} will not link");
    }
    if let (Some(folder), Some(name)) = (archive.parent(), archive.file_name()) {
        println!("cargo:rustc-link-search=native={}", folder.display());
        println!(
            "cargo:rustc-link-lib=static:+verbatim={}",
            Path::new(name).display()
        );
    }
}

fn places() -> Vec<PathBuf> {
    let package = PathBuf::from(env::var_os("CARGO_MANIFEST_DIR").unwrap_or_default());
    match env::var_os("TRACK_ARCHIVE").filter(|named| !named.is_empty()) {
        Some(named) => vec![named.into()],
        None => ["../../target/archive/libtrack.a", "../../../lib/libtrack.a"]
            .map(|place| package.join(place))
            .into(),
    }
}
