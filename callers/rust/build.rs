//! Finds the archives, in the folder that `HULAYBAN_LIB_DIR` names, or else by pkg-config.
use std::{env, process::Command};

fn main() {
    println!("cargo::rerun-if-env-changed=HULAYBAN_LIB_DIR");
    println!("cargo::rerun-if-env-changed=PKG_CONFIG_PATH");
    link("hulayban");
    if env::var_os("CARGO_FEATURE_TRACE").is_some() {
        link("hulayban_trace");
    }
}

fn link(name: &str) {
    let folder = env::var("HULAYBAN_LIB_DIR").unwrap_or_else(|_| folder_of(name));
    println!("cargo::rerun-if-changed={folder}/lib{name}.a");
    println!("cargo::rustc-link-search=native={folder}");
    println!("cargo::rustc-link-lib=static={name}");
}

fn folder_of(name: &str) -> String {
    let mut command = Command::new(env::var_os("PKG_CONFIG").unwrap_or("pkg-config".into()));
    let ran = command.args(["--variable=libdir", name]).output();
    match ran {
        Ok(it) if it.status.success() => String::from_utf8_lossy(&it.stdout).trim().to_owned(),
        _ => panic!(
            "pkg-config doesn't find {name}: install it, or name its folder by HULAYBAN_LIB_DIR"
        ),
    }
}
