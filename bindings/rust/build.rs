//! Tells cargo where the library is: in the folder that `IMAP_LIBRARY` names.

use std::env;
use std::path::Path;

fn main() {
    println!("cargo:rerun-if-env-changed=IMAP_LIBRARY");
    let Some(folder) = env::var_os("IMAP_LIBRARY") else {
        println!("cargo:warning=IMAP_LIBRARY is not set: it has to name the folder of libimap.a, which checks/fronts/library makes");
        return;
    };
    let folder = Path::new(&folder);
    println!("cargo:rerun-if-changed={}", folder.join("libimap.a").display());
    println!("cargo:rustc-link-search=native={}", folder.display());
    println!("cargo:rustc-link-lib=static=imap");
}
