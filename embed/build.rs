// Has the proved library linked: `libexports.a` of the folder that CHECKER_LIB names, else of a folder beside this one. Without it the
// crate can be built and documented, but no program linked.
use std::env;
use std::path::{Path, PathBuf};

const ARCHIVE: &str = "libexports.a";
// in the archive of a release, and where embed/library and an unpacked release put it
const BESIDE: [&str; 3] = ["../lib", "../target/staticlib", "../target/release/lib"];

// The archives that would do, the first one first. A path that is not absolute starts at the manifest.
fn archives() -> Vec<PathBuf> {
    let manifest = PathBuf::from(env::var_os("CARGO_MANIFEST_DIR").unwrap_or_default());
    let archive = |folder: &Path| manifest.join(folder).join(ARCHIVE);
    match env::var_os("CHECKER_LIB") {
        Some(folder) => vec![archive(Path::new(&folder))],
        None => BESIDE.iter().map(|folder| archive(Path::new(folder))).collect(),
    }
}

// What is looked at again at the next build.
fn watch(archive: &Path) {
    println!("cargo:rerun-if-changed={}", archive.display());
}

fn main() {
    println!("cargo:rerun-if-env-changed=CHECKER_LIB");
    println!("cargo:rerun-if-changed=build.rs");
    let archives = archives();
    match archives.iter().find(|archive| archive.is_file()) {
        Some(archive) => {
            watch(archive);
            let folder = archive.parent().unwrap_or(Path::new("."));
            println!("cargo:rustc-link-search=native={}", folder.display());
            println!("cargo:rustc-link-lib=static=exports");
        }
        None => {
            archives.iter().for_each(|archive| watch(archive));
            let places: Vec<String> = archives.iter().map(|archive| archive.display().to_string()).collect();
            let places = places.join(", no ");
            println!("cargo:warning=no program will link: set CHECKER_LIB to the folder of {ARCHIVE}; there is no {places}");
        }
    }
}
