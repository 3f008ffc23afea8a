//! Links the proved library where a feature asks for it. Its directory is given by GUSEMRAK_LIB at build time.

fn main() {
    println!("cargo:rerun-if-env-changed=GUSEMRAK_LIB");
    if std::env::var_os("CARGO_FEATURE_PROVED").is_none() {
        return;
    }
    let dir = std::env::var("GUSEMRAK_LIB").expect("GUSEMRAK_LIB names the directory of libgusemrak.a");
    println!("cargo:rerun-if-changed={dir}/libgusemrak.a");
    println!("cargo:rustc-link-search=native={dir}");
    println!("cargo:rustc-link-lib=static=gusemrak");
}
