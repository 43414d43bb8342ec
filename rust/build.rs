//! Links the proved desk, the static library `libcheckraven_c.a`.

use std::env;
use std::path::{Path, PathBuf};
use std::process;

const LIBRARY: &str = "libcheckraven_c.a";
const FOLDER: &str = "CHECKRAVEN_LIB_DIR";

fn main() {
    println!("cargo:rerun-if-env-changed={FOLDER}");
    let places = places();
    for place in &places {
        println!("cargo:rerun-if-changed={}", place.join(LIBRARY).display());
    }
    match places.iter().find(|place| place.join(LIBRARY).is_file()) {
        Some(folder) => link(folder),
        None => give_up(&places),
    }
}

/// The linker is started in a folder of its own, so a relative path is made whole.
fn link(folder: &Path) {
    let folder = folder.canonicalize().expect("the library was found there");
    println!("cargo:rustc-link-search=native={}", folder.display());
    println!("cargo:rustc-link-lib=static=checkraven_c");
}

fn give_up(places: &[PathBuf]) -> ! {
    for place in places {
        eprintln!("checkraven: no {} in {}", LIBRARY, place.display());
    }
    eprintln!("checkraven: run `./make-library` in the folder of crates.txt,");
    eprintln!("checkraven: or name the folder that has the library in {FOLDER}");
    process::exit(1);
}

/// Where the library may be. A relative folder is meant from where cargo was
/// called, which its PWD says, or else from the top of the repository.
fn places() -> Vec<PathBuf> {
    let crate_folder = env::var_os("CARGO_MANIFEST_DIR").expect("cargo sets CARGO_MANIFEST_DIR");
    let top = Path::new(&crate_folder).join("..");
    match env::var_os(FOLDER).map(PathBuf::from) {
        None => vec![top.join("target/staticlib")],
        Some(folder) if folder.is_absolute() => vec![folder],
        Some(folder) => {
            println!("cargo:rerun-if-env-changed=PWD");
            let called_from = env::var_os("PWD").map(PathBuf::from);
            called_from.into_iter().chain([top]).map(|base| base.join(&folder)).collect()
        }
    }
}
