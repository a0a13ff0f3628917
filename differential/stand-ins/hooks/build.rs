//! `PLANK_SILENT=1` builds hooks that tell nothing, for timing the reference.

use std::env;

fn main() {
    println!("cargo::rerun-if-env-changed=PLANK_SILENT");
    println!("cargo::rustc-check-cfg=cfg(silent)");
    if env::var_os("PLANK_SILENT").is_some() {
        println!("cargo::rustc-cfg=silent");
    }
}
