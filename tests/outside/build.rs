//! Tells the linker where the libraries stand; only the programs that compare need them.

const LIBRARIES: [(&str, &str); 6] = [
    ("COMPARE", "libshareout_c.a"),
    ("CUTS", "libcut_c.a"),
    ("DIVISIONS", "libdivision_c.a"),
    ("STRICT", "libstrict_c.a"),
    ("EXACT", "libexact_c.a"),
    ("JUDGE", "libjudge_c.a"),
];

fn main() {
    println!("cargo:rerun-if-env-changed=SHAREOUT_LIB_DIR");
    for (feature, library) in LIBRARIES {
        if std::env::var_os(format!("CARGO_FEATURE_{feature}")).is_some() {
            let folder = std::env::var("SHAREOUT_LIB_DIR")
                .unwrap_or_else(|_| panic!("SHAREOUT_LIB_DIR names the folder of {library}"));
            println!("cargo:rustc-link-search=native={folder}");
            println!("cargo:rerun-if-changed={folder}/{library}");
        }
    }
}
