//! Proves the library and builds its archive for Cargo's target, from this repository. `SEGMENT_TABLE_ARCHIVE` names an
//! archive that was built before, for a machine without the Rattle kit.
use std::path::{Path, PathBuf};
use std::process::Command;
use std::{env, fs};

fn main() {
    println!("cargo:rerun-if-env-changed=SEGMENT_TABLE_ARCHIVE");
    let out = PathBuf::from(env::var("OUT_DIR").unwrap());
    let archive = out.join("libsegment_table.a");
    match env::var("SEGMENT_TABLE_ARCHIVE") {
        Ok(ready) => {
            println!("cargo:rerun-if-changed={ready}");
            fs::copy(&ready, &archive).unwrap_or_else(|e| panic!("cannot copy {ready}: {e}"));
        }
        Err(_) => build(&archive),
    }
    println!("cargo:rustc-link-search=native={}", out.display());
    println!("cargo:rustc-link-lib=static=segment_table");
}

fn build(archive: &Path) {
    let root = Path::new(env!("CARGO_MANIFEST_DIR")).join("../..");
    for part in ["crates.txt", "tools/native-staticlib"] {
        println!("cargo:rerun-if-changed={}", root.join(part).display());
    }
    // not out/, which every check writes
    for folder in fs::read_dir(root.join("crates")).into_iter().flatten().flatten() {
        for part in ["src", "specs", "proofs"] {
            let path = folder.path().join(part);
            if path.is_dir() {
                println!("cargo:rerun-if-changed={}", path.display());
            }
        }
    }
    let [arch, os] = ["ARCH", "OS"].map(|part| env::var(format!("CARGO_CFG_TARGET_{part}")).unwrap());
    let mut make = Command::new(root.join("tools/native-staticlib"));
    let made = make.arg("segment_table").arg(archive).args(["--target", &format!("{arch}-{os}-gnu")]).current_dir(&root).status();
    match made {
        Ok(status) if status.success() => {}
        other => panic!("tools/native-staticlib segment_table: {other:?}; it needs the Rattle kit's bin/ on the PATH"),
    }
}
