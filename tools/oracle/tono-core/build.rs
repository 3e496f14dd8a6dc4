//! Lays the originals of docs/src and the stand-ins of this crate side by side in the build's own folder, so that every
//! `mod` of an original finds its file. docs/src is the one place where an original stands; nothing here alters its text.

use std::path::{Path, PathBuf};
use std::{env, fs};

const ORIGINALS: [&str; 10] = [
    "units.rs",
    "diag.rs",
    "dsp.rs",
    "dsl/mod.rs",
    "dsl/bounds.rs",
    "song/mod.rs",
    "song/compile.rs",
    "song/diagnostics.rs",
    "song/pattern.rs",
    "runtime/transport.rs",
];

const STAND_INS: [&str; 12] = [
    "root.rs",
    "access.rs",
    "catalog.rs",
    "det.rs",
    "music.rs",
    "program.rs",
    "dsl/node.rs",
    "dsl/tracks.rs",
    "dsl/validate.rs",
    "song/estimate.rs",
    "song/phrase.rs",
    "runtime/mod.rs",
];

fn copy(files: &[&str], from: &Path, to: &Path) {
    for file in files {
        let (source, target) = (from.join(file), to.join(file));
        println!("cargo:rerun-if-changed={}", source.display());
        let text = fs::read(&source).unwrap_or_else(|e| panic!("{}: {e}", source.display()));
        fs::create_dir_all(target.parent().expect("a folder")).expect("the build's folder");
        fs::write(&target, text).unwrap_or_else(|e| panic!("{}: {e}", target.display()));
    }
}

fn main() {
    println!("cargo:rerun-if-changed=build.rs");
    let here = PathBuf::from(env::var_os("CARGO_MANIFEST_DIR").expect("cargo"));
    let out = PathBuf::from(env::var_os("OUT_DIR").expect("cargo")).join("tono-core");
    copy(&ORIGINALS, &here.join("../../../docs/src/crates/tono-core/src"), &out);
    copy(&STAND_INS, &here.join("stand-ins"), &out);
}
