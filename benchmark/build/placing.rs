//! Links each entry at four places: its code begins 0, 16, 32 or 48 bytes after a multiple of 64, and its
//! name ends in `_at_0` and so on. See src/placed.rs for the reason.

use std::path::{Path, PathBuf};
use std::process::Command;

/// A library and the entry that it has.
const ENTRIES: [(&str, &str); 4] = [
    ("cut_c", "cut_row"),
    ("division_c", "divide_table"),
    ("shareout_c", "shareout_text"),
    ("strict_c", "strict_text"),
];

/// Places the entries of the libraries in these folders, whose names have these prefixes.
pub fn place(folders: &[(&str, &str)]) {
    let out = std::env::var("OUT_DIR").expect("cargo sets OUT_DIR");
    let out = Path::new(&out);
    let mut archiving = Command::new("ar");
    archiving.arg("rcs").arg(out.join("libplaced.a"));
    for (folder, prefix) in folders {
        for (library, entry) in ENTRIES {
            let library = format!("{folder}/lib{prefix}{library}.a");
            println!("cargo:rerun-if-changed={library}");
            for place in [0, 16, 32, 48] {
                archiving.arg(place_at(place, &library, &format!("{prefix}{entry}"), out));
            }
        }
    }
    run(&mut archiving);
    println!("cargo:rustc-link-search=native={}", out.display());
    println!("cargo:rustc-link-lib=static=placed");
}

/// One object with all code of the library after so many bytes, and no other global name than the entry's.
fn place_at(place: usize, library: &str, entry: &str, out: &Path) -> PathBuf {
    let name = format!("{entry}_at_{place}");
    let object = out.join(format!("{name}.o"));
    let script = out.join("place.ld");
    let layout = format!("SECTIONS {{ .text : {{ . += {place}; *(.text .text.*) }} }}\n");
    std::fs::write(&script, layout).expect("OUT_DIR can be written to");
    let mut linking = Command::new("ld");
    linking.arg("-r").arg("-T").arg(script).arg("-o").arg(&object);
    run(linking.arg("--whole-archive").arg(library));
    let mut naming = Command::new("objcopy");
    naming.arg("--redefine-sym").arg(format!("{entry}={name}"));
    naming.arg("--keep-global-symbol").arg(&name);
    run(naming.arg("--set-section-alignment").arg(".text=64").arg(&object));
    object
}

fn run(command: &mut Command) {
    let done = command.status().is_ok_and(|status| status.success());
    assert!(done, "failed: {command:?}");
}
