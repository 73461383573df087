// Links the archive that `rt lib` in crates/census writes to its folder out; CENSUS_LIB names another folder. Finds the original for the
// tests, as compare/oracle does; where it is not there, the test that needs it is ignored.
use std::path::PathBuf;

fn main() {
    println!("cargo::rustc-check-cfg=cfg(original)");
    archive();
    if original().is_some() {
        println!("cargo::rustc-cfg=original");
    }
}

// the folder that the variable names, or else the one at a path from this package
fn folder(variable: &str, usual: &str) -> PathBuf {
    println!("cargo::rerun-if-env-changed={variable}");
    let named = std::env::var(variable).unwrap_or_else(|_| usual.to_string());
    std::path::absolute(named).expect("the package's folder has a path")
}

fn archive() {
    let folder = folder("CENSUS_LIB", "../../crates/census/out");
    let file = folder.join("libcensus.a");
    println!("cargo::rerun-if-changed={}", file.display());
    if !file.exists() {
        println!(
            "cargo::error={} is not there: run `rt lib` in crates/census, or set CENSUS_LIB to the archive's folder",
            file.display()
        );
    }
    println!("cargo::rustc-link-search=native={}", folder.display());
    println!("cargo::rustc-link-lib=static=census");
}

// Some where every file of the original is there, as NAME.rs.txt (as supplied) or NAME.rs (as published)
fn original() -> Option<()> {
    let folder = folder("CENSUS_SRC", "../../../shared/docs/src/src");
    for name in ["census", "prob", "parallelism", "error"] {
        let file = ["rs.txt", "rs"].iter().map(|ending| folder.join(name).with_extension(ending)).find(|file| file.exists())?;
        println!("cargo::rerun-if-changed={}", file.display());
        println!("cargo::rustc-env=ORIGINAL_{}={}", name.to_uppercase(), file.display());
    }
    Some(())
}
