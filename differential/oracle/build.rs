//! Brings the seven files of the reference, unchanged, and the stand-ins for the files
//! between them into the build's own folder, and writes the `mod` lines that name them.

use std::{
    env, fs,
    path::{Path, PathBuf},
};

const REFERENCE: [&str; 7] = [
    "ast/expr.rs",
    "ast/mod.rs",
    "cst/mod.rs",
    "lexer.rs",
    "parser/mod.rs",
    "parser/strings.rs",
    "parser/token_items.rs",
];

const BETWEEN: [&str; 2] = ["cst/display.rs", "parser/errors.rs"];

const MODULES: [(&str, &str); 4] = [
    ("ast", "ast/mod.rs"),
    ("cst", "cst/mod.rs"),
    ("lexer", "lexer.rs"),
    ("parser", "parser/mod.rs"),
];

fn main() {
    let workspace = PathBuf::from(env::var_os("CARGO_MANIFEST_DIR").unwrap()).join("..");
    let out = PathBuf::from(env::var_os("OUT_DIR").unwrap());
    let reference = docs_src(&workspace).join("plankc/frontend/parser/src");
    for file in REFERENCE {
        place(&reference.join(file), &out.join(file));
    }
    for file in BETWEEN {
        place(&workspace.join("stand-ins/between").join(file), &out.join(file));
    }
    fs::write(out.join("modules.rs"), module_lines(&out)).unwrap();
}

/// The folder `docs/src` that holds the reference.
fn docs_src(workspace: &Path) -> PathBuf {
    println!("cargo::rerun-if-env-changed=PLANK_SRC");
    let folder = env::var_os("PLANK_SRC").map(PathBuf::from);
    folder.unwrap_or_else(|| workspace.join("../../shared/docs/src"))
}

fn place(from: &Path, to: &Path) {
    println!("cargo::rerun-if-changed={}", from.display());
    let bytes = fs::read(from).unwrap_or_else(|error| {
        panic!("{}: {error}; PLANK_SRC names the folder docs/src", from.display())
    });
    fs::create_dir_all(to.parent().unwrap()).unwrap();
    fs::write(to, bytes).unwrap();
}

/// Dead code is allowed: what only the missing files read is never read here.
fn module_lines(out: &Path) -> String {
    let line = |(name, file): &(&str, &str)| {
        format!("#[allow(dead_code)]\n#[path = {:?}]\npub mod {name};\n", out.join(file))
    };
    MODULES.iter().map(line).collect()
}
