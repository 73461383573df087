// Finds the original's files. CENSUS_SRC names their folder; a file is NAME.rs.txt (as supplied) or NAME.rs (as published).
// Nothing is copied or edited: lib.rs includes them where they stand.
use std::path::Path;

fn main() {
    println!("cargo:rerun-if-env-changed=CENSUS_SRC");
    // beside the repository, seen from this package
    let folder = std::env::var("CENSUS_SRC").unwrap_or_else(|_| "../../../shared/docs/src/src".to_string());
    let folder = std::fs::canonicalize(&folder).unwrap_or_else(|_| panic!("{folder} is not there: set CENSUS_SRC"));
    for name in ["census", "prob", "parallelism", "error"] {
        let supplied = format!("{}/{name}.rs.txt", folder.display());
        let published = format!("{}/{name}.rs", folder.display());
        let path = if Path::new(&supplied).exists() { supplied } else { published };
        assert!(Path::new(&path).exists(), "{path} is not there: set CENSUS_SRC");
        println!("cargo:rerun-if-changed={path}");
        println!("cargo:rustc-env=ORIGINAL_{}={path}", name.to_uppercase());
    }
}
