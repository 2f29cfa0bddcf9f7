//! Finds `libwachuspi.a`: in the folder that `WACHUSPI_LIB` names, or by `pkg-config`.
use std::env;
use std::process::Command;

fn main() {
    println!("cargo:rerun-if-env-changed=WACHUSPI_LIB");
    match env::var("WACHUSPI_LIB") {
        Ok(folder) => {
            println!("cargo:rustc-link-search=native={folder}");
            println!("cargo:rerun-if-changed={folder}/libwachuspi.a");
        }
        Err(_) => ask_pkg_config(),
    }
    println!("cargo:rustc-link-lib=static=wachuspi");
}

fn ask_pkg_config() {
    let asked = Command::new("pkg-config")
        .args(["--variable=libdir", "wachuspi"])
        .output();
    match asked {
        Ok(told) if told.status.success() => {
            let folder = String::from_utf8_lossy(&told.stdout);
            println!("cargo:rustc-link-search=native={}", folder.trim());
        }
        _ => println!("cargo:warning=set WACHUSPI_LIB to the folder of libwachuspi.a"),
    }
}
