//! Puts the oracle together from the unchanged Rust: `segment_table.rs` and `mxf.rs` whole, of `util.rs` the functions
//! that those two call. The folder of the sources is in the environment variable DOCS_SRC.

use std::{ collections::BTreeSet, env, fs, path::{ Path, PathBuf } };

fn main() {
    println!("cargo::rerun-if-env-changed=DOCS_SRC");
    let src = PathBuf::from(env::var("DOCS_SRC").expect("DOCS_SRC names the folder of the Rust sources")).join("src");
    let out = PathBuf::from(env::var("OUT_DIR").unwrap());
    let table = read(&src.join("segment_table.rs"));
    let mxf = read(&src.join("mxf.rs"));
    let util = read(&src.join("util.rs"));
    let reach = read(&folder().join("src/reach.rs"));
    let mut functions = String::from("use std::io::*;\n");
    for name in called(&table).union(&called(&mxf)) {
        functions += function(&util, name);
    }
    fs::write(out.join("segment_table.rs"), table + "\n" + &reach).unwrap();
    fs::write(out.join("mxf.rs"), mxf).unwrap();
    fs::write(out.join("util.rs"), functions).unwrap();
    let module = |name: &str| format!("#[path = {:?}]\npub mod {name};\n", out.join(format!("{name}.rs")));
    fs::write(out.join("modules.rs"), ["segment_table", "mxf", "util"].map(module).concat()).unwrap();
}

/// The folder of this script, from which both packages are built
fn folder() -> PathBuf {
    let package = PathBuf::from(env::var("CARGO_MANIFEST_DIR").unwrap());
    if package.ends_with("released") { package.join("..") } else { package }
}

fn read(path: &Path) -> String {
    println!("cargo::rerun-if-changed={}", path.display());
    fs::read_to_string(path).unwrap_or_else(|e| panic!("{}: {e}", path.display()))
}

/// The names of the functions that a source calls as `util::NAME(`
fn called(source: &str) -> BTreeSet<&str> {
    source.split("util::").skip(1).filter_map(|rest| rest.split_once('(')).map(|(name, _)| name)
        .filter(|name| name.chars().all(|c| c.is_ascii_alphanumeric() || c == '_')).collect()
}

/// The text of the public function `name`, from its first line to the closing brace at the start of a line
fn function<'a>(source: &'a str, name: &str) -> &'a str {
    let starts = [format!("\npub fn {name}("), format!("\npub fn {name}<")];
    let from = starts.iter().find_map(|start| source.find(start)).unwrap_or_else(|| panic!("util.rs has no function {name}"));
    let length = source[from..].find("\n}\n").unwrap_or_else(|| panic!("the end of {name} isn't found in util.rs"));
    &source[from..from + length + 3]
}
