// Links the archive of the proved calls, from the folder that FREGNAUL_ARCHIVE names or this repository's target/staticlib.
use std::path::Path;

fn main() {
    let named = std::env::var_os("FREGNAUL_ARCHIVE").unwrap_or_else(|| "../../target/staticlib".into());
    let folder = Path::new(env!("CARGO_MANIFEST_DIR")).join(named);
    let archive = folder.join("libfregnaul.a");
    if !archive.is_file() {
        eprintln!(
            "no archive at {}: run ./archive in the repository, or set FREGNAUL_ARCHIVE to the folder that holds libfregnaul.a",
            archive.display()
        );
        std::process::exit(1);
    }
    println!("cargo:rustc-link-search=native={}", folder.display());
    println!("cargo:rustc-link-lib=static=fregnaul");
    println!("cargo:rerun-if-env-changed=FREGNAUL_ARCHIVE");
    println!("cargo:rerun-if-changed={}", archive.display());
}
