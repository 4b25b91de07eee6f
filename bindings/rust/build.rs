//! Tells cargo where the proved library is. A package of a release has it in `lib/`, for each of its targets. Otherwise it
//! is the library for C with the kit's C library that it needs: in the folders that `ANSI_STR_C` and `RATTLE_C` name, by
//! default those of the repository and the kit. If one isn't there, says what to run.

use std::env;
use std::fs;
use std::path::{Path, PathBuf};
use std::process;

fn link(name: &str, variable: &str, usual: PathBuf, to_run: &str) {
    let folder = env::var_os(variable).map_or(usual, PathBuf::from);
    let library = folder.join(format!("lib{name}.a"));
    println!("cargo:rerun-if-env-changed={variable}");
    println!("cargo:rerun-if-changed={}", library.display());
    if !library.is_file() {
        eprintln!(
            "ansi-str: there is no {}. Run `{to_run}`, or name its folder in {variable}.",
            library.display()
        );
        process::exit(1);
    }
    println!("cargo:rustc-link-search=native={}", folder.display());
    println!("cargo:rustc-link-lib=static={name}");
}

/// The targets that the package has its library for.
fn packaged(libraries: &Path) -> Vec<String> {
    let entries = fs::read_dir(libraries).into_iter().flatten().flatten();
    let mut targets: Vec<_> = entries
        .filter_map(|entry| entry.file_name().into_string().ok())
        .collect();
    targets.sort();
    targets
}

/// Links the library of the package, if it is for this target. That for glibc is for musl too: it takes its memory from the C library by
/// `malloc` and the like, and nothing else that differs.
fn link_packaged(libraries: &Path) {
    let target = env::var("TARGET").expect("cargo sets TARGET");
    let folder = libraries.join(target.replace("-linux-musl", "-linux-gnu"));
    if !folder.is_dir() {
        eprintln!(
            "ansi-str: this package has its library for {} alone, not for {target}. \
             ANSI_STR_C and RATTLE_C can name the folders of libansi_str_c.a and liblibc_c.a that you built for it.",
            packaged(libraries).join(" and ")
        );
        process::exit(1);
    }
    println!("cargo:rustc-link-search=native={}", folder.display());
    println!("cargo:rustc-link-lib=static=ansi_str");
}

fn main() {
    let package = Path::new(env!("CARGO_MANIFEST_DIR"));
    let libraries = package.join("lib");
    println!("cargo:rerun-if-env-changed=ANSI_STR_C");
    if libraries.is_dir() && env::var_os("ANSI_STR_C").is_none() {
        return link_packaged(&libraries);
    }
    let library = package.join("../../crates/ansi_str_c");
    let to_build = format!("cd {} && rt lib", library.display());
    link("ansi_str_c", "ANSI_STR_C", library.join("out"), &to_build);
    let kit = PathBuf::from("/opt/rattle/c");
    let to_find = "export RATTLE_C=$(dirname \"$(rt doc)\")/c";
    link("libc_c", "RATTLE_C", kit, to_find);
}
