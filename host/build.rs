//! With the feature `door`: links the proved code, `../crates/door/out/libdoor.a` (`rt lib` in crates/door). That is for x86-64; on
//! another machine it goes into an x86-64 program instead, `c/serve.c`, which `src/door/piped.rs` asks. On x86-64 `TAKSHERUB_DOOR` names
//! another folder with a `libdoor.a`, so that two builds of the proved code can be timed against each other.

use std::env;
use std::path::{Path, PathBuf};
use std::process::Command;

const FOLDER: &str = "TAKSHERUB_DOOR";

fn main() {
    println!("cargo:rerun-if-changed=build.rs");
    if env::var_os("CARGO_FEATURE_DOOR").is_none() {
        return;
    }
    let host = variable("CARGO_MANIFEST_DIR");
    let linked = variable("CARGO_CFG_TARGET_ARCH") == "x86_64";
    println!("cargo:rerun-if-env-changed={FOLDER}");
    let other = env::var_os(FOLDER).filter(|_| linked).map(PathBuf::from);
    let folder = other.unwrap_or_else(|| Path::new(&host).join("../crates/door/out"));
    let archive = folder.join("libdoor.a");
    println!("cargo:rerun-if-changed={}", archive.display());
    if !archive.exists() {
        panic!("{} is missing: write it with `rt lib` in crates/door", archive.display());
    }
    if linked {
        println!("cargo:rustc-link-search=native={}", folder.display());
        println!("cargo:rustc-link-lib=static=door");
    } else {
        make_server(Path::new(&host));
    }
}

fn variable(name: &str) -> String {
    env::var(name).unwrap_or_else(|_| panic!("cargo sets {name}"))
}

fn make_server(host: &Path) {
    let [tool, source] = ["../tools/x86-64", "c/serve.c"].map(|name| host.join(name));
    for file in [&tool, &source, &host.join("include/taksherub.h")] {
        println!("cargo:rerun-if-changed={}", file.display());
    }
    let server = Path::new(&variable("OUT_DIR")).join("serve");
    let made = Command::new(&tool).arg("cc").arg(&server).arg(&source).status();
    assert!(made.is_ok_and(|status| status.success()), "{} was not made", server.display());
}
