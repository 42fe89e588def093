//! Takes the nine decode modules of the Rust from the folder in L3_SOURCE, else from ../shared/docs/src beside the
//! repository, and writes copies to OUT_DIR. Two adaptations, and no others: a private item at the margin becomes
//! `pub(crate)`, and mod.rs declares src/entry.rs as its child. Without the folder the cfg `source_at_hand` stays unset.
use std::path::{Path, PathBuf};
use std::{env, fs};

const MODULES: [&str; 9] = ["bytes", "error", "header", "legacy16", "mod", "pdb", "products", "symbology", "xdr"];

fn main() {
    println!("cargo:rustc-check-cfg=cfg(source_at_hand)");
    println!("cargo:rerun-if-env-changed=L3_SOURCE");
    println!("cargo:rerun-if-changed=../radish/build.rs");
    let here = PathBuf::from(env::var("CARGO_MANIFEST_DIR").unwrap());
    let out = PathBuf::from(env::var("OUT_DIR").unwrap());
    let source = match env::var_os("L3_SOURCE") {
        Some(folder) => here.join("..").join(folder),
        None => here.join("../../../shared/docs/src"),
    };
    println!("cargo:rerun-if-changed={}", source.display());
    let found: Vec<PathBuf> = MODULES.iter().filter_map(|m| find(&source, m)).collect();
    if found.len() < MODULES.len() {
        return;
    }
    let entry = here.join("../radish/src/entry.rs").canonicalize().unwrap();
    fs::create_dir_all(out.join("decode")).unwrap();
    for (module, from) in MODULES.iter().zip(&found) {
        println!("cargo:rerun-if-changed={}", from.display());
        let mut text = adapted(&fs::read_to_string(from).unwrap());
        if *module == "mod" {
            text.push_str(&format!("\n#[path = {entry:?}]\npub mod entry;\n"));
        }
        fs::write(out.join("decode").join(format!("{module}.rs")), text).unwrap();
    }
    let root = out.join("decode/mod.rs");
    fs::write(out.join("decode.rs"), format!("#[path = {root:?}]\nmod decode;\n")).unwrap();
    println!("cargo:rustc-cfg=source_at_hand");
}

/// A module under its path in the Rust's repository, or under the name that the list of files gives it.
fn find(source: &Path, module: &str) -> Option<PathBuf> {
    let path = format!("radish/src/backends/nexrad_level3/decode/{module}.rs");
    let listed = format!("{}.txt", path.replace('/', "--"));
    [path, listed.clone(), format!("src--{listed}")].iter().map(|p| source.join(p)).find(|p| p.exists())
}

fn adapted(text: &str) -> String {
    let private = |line: &str| ["fn ", "struct ", "const ", "mod "].iter().any(|k| line.starts_with(k));
    text.lines().map(|line| format!("{}{line}\n", if private(line) { "pub(crate) " } else { "" })).collect()
}
