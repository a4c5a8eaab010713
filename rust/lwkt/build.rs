//! Links liblwkt.a, unless the feature `std` is turned off: of the folder that LWKT_LIBRARY names, or the shipped one of this tree, or the one that pkg-config knows. With the
//! feature `record` it compiles the recorder, by the C compiler that CC names, or cc.
use std::env;
use std::path::{Path, PathBuf};
use std::process::Command;

// A folder of the library that was installed, as pkg-config names it.
fn installed(folder: &str) -> Option<PathBuf> {
    let asked = Command::new("pkg-config")
        .args([&format!("--variable={folder}"), "lwkt"])
        .output()
        .ok()?;
    let folder = String::from_utf8(asked.stdout).ok()?;
    (asked.status.success() && !folder.trim().is_empty()).then(|| folder.trim().into())
}

// Runs a command, which has to go well.
fn run(command: &mut Command) {
    if !command.status().is_ok_and(|status| status.success()) {
        panic!("{command:?} fails, which the feature `record` needs");
    }
}

// Compiles src/record.c over the header of this tree, or over the installed one: beside this crate, or where pkg-config says.
fn compile_recorder(tree: &Path) {
    let (source, out) = (
        tree.join("src/record.c"),
        PathBuf::from(env::var_os("OUT_DIR").expect("cargo sets it")),
    );
    let (object, archive) = (out.join("record.o"), out.join("liblwkt_record_calls.a"));
    let places = [tree.join("../../include"), tree.join("../../../../include")];
    let beside = places.iter().find(|folder| folder.join("lwkt_record.h").is_file());
    let headers = beside.cloned().or_else(|| installed("includedir")).unwrap_or_default();
    println!("cargo:rerun-if-env-changed=CC");
    println!("cargo:rerun-if-changed={}", source.display());
    println!("cargo:rerun-if-changed={}", headers.join("lwkt_record.h").display());
    let compiler = env::var_os("CC").unwrap_or("cc".into());
    run(Command::new(compiler)
        .args(["-std=c11", "-O2", "-fPIC", "-c", "-I"])
        .arg(headers)
        .arg("-o")
        .arg(&object)
        .arg(source));
    run(Command::new("ar").arg("crs").arg(archive).arg(object));
    println!("cargo:rustc-link-search=native={}", out.display());
    println!("cargo:rustc-link-lib=static=lwkt_record_calls");
}

fn main() {
    if env::var_os("CARGO_FEATURE_STD").is_none() {
        return;
    }
    println!("cargo:rerun-if-env-changed=LWKT_LIBRARY");
    println!("cargo:rerun-if-env-changed=PKG_CONFIG_PATH");
    let tree = PathBuf::from(env::var_os("CARGO_MANIFEST_DIR").expect("cargo sets it"));
    let shipped = tree.join("../../dist/x86_64-linux");
    let folder = match env::var_os("LWKT_LIBRARY") {
        Some(folder) => folder.into(),
        None if shipped.is_dir() => shipped,
        None => installed("libdir").unwrap_or(shipped),
    };
    let archive = folder.join("liblwkt.a");
    println!("cargo:rerun-if-changed={}", archive.display());
    if !archive.is_file() {
        panic!(
            "{} isn't there: tools/library builds it, and LWKT_LIBRARY names the folder of another one",
            archive.display()
        );
    }
    println!("cargo:rustc-link-search=native={}", folder.display());
    println!("cargo:rustc-link-lib=static=lwkt");
    if env::var_os("CARGO_FEATURE_RECORD").is_some() {
        compile_recorder(&tree);
    }
}
