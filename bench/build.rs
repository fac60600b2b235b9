// Links the proved library that `rt lib` wrote in crates/speed_exports; for `bench/run names` those of the lookup as it is and, where it was built, as it was.
fn main() {
    let link = |folder: &str, name: &str| {
        println!("cargo:rustc-link-search=native={folder}/crates/{name}/out");
        println!("cargo:rustc-link-lib=static={name}");
        println!("cargo:rerun-if-changed={folder}/crates/{name}/out/lib{name}.a");
    };
    if std::env::var("CARGO_FEATURE_NAMES").is_ok() {
        let mut lookups = vec![("now", "names_now"), ("now", "called_now")];
        if std::env::var("CARGO_FEATURE_BEFORE").is_ok() {
            lookups.extend([("before", "names_before"), ("before", "called_before")]);
        }
        let trees = std::env::var("NAMES_TREES").expect("bench/run names sets NAMES_TREES");
        println!("cargo:rerun-if-env-changed=NAMES_TREES");
        for (folder, name) in lookups {
            link(&format!("{trees}/{folder}"), name);
        }
    } else {
        link(&format!("{}/..", std::env::var("CARGO_MANIFEST_DIR").unwrap()), "speed_exports");
    }
}
