//! Links the proved library. GUSEMRAK_LIB names the directory of libgusemrak.a; without it that is where
//! `rt lib` in crates/gusemrak writes it.

use std::env;
use std::path::{Path, PathBuf};

fn main() {
    println!("cargo:rerun-if-env-changed=GUSEMRAK_LIB");
    let manifest = PathBuf::from(env::var_os("CARGO_MANIFEST_DIR").expect("cargo names the manifest's directory"));
    let named = env::var_os("GUSEMRAK_LIB").unwrap_or_else(|| "../crates/gusemrak/out".into());
    // The linker runs in another directory, so a relative name is taken from the manifest's; an absolute one stays.
    let directory = manifest.join(Path::new(&named));
    let library = directory.join("libgusemrak.a");
    println!("cargo:rerun-if-changed={}", library.display());
    if !library.is_file() {
        panic!(
            "no {}: run `rt lib` in crates/gusemrak, or set GUSEMRAK_LIB to its directory",
            library.display()
        );
    }
    println!("cargo:rustc-link-search=native={}", directory.display());
    println!("cargo:rustc-link-lib=static=gusemrak");
}
