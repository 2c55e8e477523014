//! Copies the published files, byte for byte, from the folder that
//! PORTGRAPH_SRC names into the build folder. Beside them it writes empty types
//! for the parts of `view` that were not published, so that rustc finds every
//! `mod name;` where the published files expect it. (`#[path]` alone cannot do
//! this: the inner modules would be looked for beside the published files.)
//!
//! Of lib.rs only the module `direction` is taken, up to the end of the file,
//! also unchanged: the list before it names modules that are not here.

use std::path::{Path, PathBuf};
use std::{env, fs, process};

const PUBLISHED: [&str; 6] = [
    "portgraph.rs",
    "portgraph/iter.rs",
    "portgraph/node_entry.rs",
    "portgraph/port_entry.rs",
    "index.rs",
    "view.rs",
];
/// The modules that view.rs names, and the names that it re-exports from each.
const ABSENT: [(&str, &[&str]); 5] = [
    ("filter", &["FilteredGraph", "LinkFilter", "NodeFilter", "NodeFiltered"]),
    ("refs", &[]),
    ("flat_region", &["FlatRegion"]),
    ("region", &["Region"]),
    ("subgraph", &["CopySubgraphError", "Subgraph"]),
];

fn main() {
    println!("cargo:rerun-if-env-changed=PORTGRAPH_SRC");
    let from = env::var("PORTGRAPH_SRC").unwrap_or_else(|_| stop("build it by oracle/build"));
    let from = PathBuf::from(from);
    let to = Path::new(&env::var("OUT_DIR").unwrap()).join("published");
    fs::create_dir_all(to.join("portgraph")).unwrap();
    fs::create_dir_all(to.join("view")).unwrap();

    for name in PUBLISHED {
        fs::write(to.join(name), read(&from.join(name))).unwrap();
    }
    for (module, names) in ABSENT {
        let types: String = names.iter().map(|n| format!("pub struct {n};\n")).collect();
        let text = format!("#![allow(missing_docs)]\n{types}");
        fs::write(to.join(format!("view/{module}.rs")), text).unwrap();
    }
    let lib = read(&from.join("lib.rs"));
    let at = lib.find("mod direction {").unwrap_or_else(|| stop("lib.rs has no `direction`"));
    let list = "pub mod index;\npub mod portgraph;\npub mod view;\n";
    fs::write(to.join("root.rs"), format!("{list}{}", &lib[at..])).unwrap();
}

fn read(file: &Path) -> String {
    println!("cargo:rerun-if-changed={}", file.display());
    fs::read_to_string(file).unwrap_or_else(|e| stop(&format!("{}: {e}", file.display())))
}

fn stop(why: &str) -> ! {
    eprintln!("oracle: {why}");
    process::exit(1)
}
