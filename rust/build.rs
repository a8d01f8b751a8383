//! Finds the archive: in TELBIJAN_LIB_DIR (as `./install PREFIX` leaves it in PREFIX/lib), else in target/native of the repository, where
//! it is built first if it is not there or older than the sources.
use std::path::PathBuf;
use std::process::Command;

fn main() {
    println!("cargo:rerun-if-env-changed=TELBIJAN_LIB_DIR");
    let folder = match std::env::var_os("TELBIJAN_LIB_DIR") {
        Some(folder) if !folder.is_empty() => PathBuf::from(folder),
        _ => built(),
    };
    assert!(folder.join("libtelbijan.a").exists(), "there is no libtelbijan.a in {}: TELBIJAN_LIB_DIR is the folder that has it", folder.display());
    println!("cargo:rerun-if-changed={}", folder.join("libtelbijan.a").display());
    println!("cargo:rustc-link-search=native={}", folder.display());
    println!("cargo:rustc-link-lib=static=telbijan");
}

fn built() -> PathBuf {
    let root = PathBuf::from(std::env::var_os("CARGO_MANIFEST_DIR").unwrap()).join("..");
    let archive = root.join("target/native/libtelbijan.a");
    println!("cargo:rerun-if-changed={}", root.join("crates.txt").display());
    for each in std::fs::read_dir(root.join("crates")).unwrap().flatten() {
        for part in ["src", "specs", "proofs"].map(|part| each.path().join(part)).iter().filter(|part| part.is_dir()) {
            println!("cargo:rerun-if-changed={}", part.display());
        }
    }
    let done = Command::new(root.join("tools/archive")).arg(&archive).status();
    if !done.is_ok_and(|status| status.success()) {
        assert!(archive.exists(), "the archive could not be built: run tools/archive, or set TELBIJAN_LIB_DIR");
        println!("cargo:warning=tools/archive did not end well: what is linked may be older than the sources");
    }
    archive.parent().unwrap().to_path_buf()
}
