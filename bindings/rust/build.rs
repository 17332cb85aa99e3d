//! Links the library's archive: the file that PITO_ARCHIVE names by its full path, or lib/libpitokaenge.a of the release that
//! this crate stands in, or target/staticlib/libpitokaenge.a of the repository, which `tools/archive` writes. A changed archive
//! is linked anew. What is no archive, or one for another machine than the one that is built for, is said as such.

use std::path::PathBuf;
use std::{env, fs, process};

fn main() {
    println!("cargo:rerun-if-env-changed=PITO_ARCHIVE");
    let archive = match env::var_os("PITO_ARCHIVE") {
        Some(named) => PathBuf::from(named),
        None => {
            let root = folder("CARGO_MANIFEST_DIR").join("../..");
            let released = root.join("lib/libpitokaenge.a");
            match released.exists() {
                true => released,
                false => root.join("target/staticlib/libpitokaenge.a"),
            }
        }
    };
    if archive.is_relative() {
        fail(&format!(
            "PITO_ARCHIVE={}: name the archive by its full path",
            archive.display()
        ));
    }
    println!("cargo:rerun-if-changed={}", archive.display());
    let bytes = fs::read(&archive).unwrap_or_else(|reason| {
        fail(&format!(
            "{}: {reason}; `tools/archive` writes it, and PITO_ARCHIVE names another",
            archive.display()
        ))
    });
    if !bytes.starts_with(b"!<arch>\n") {
        fail(&format!("{}: this is no archive", archive.display()));
    }
    let wanted = env::var("CARGO_CFG_TARGET_ARCH").expect("cargo sets it");
    match machine(&bytes) {
        Some(found) if found != wanted => fail(&format!(
            "{}: this archive is for {found}, and the program is built for {wanted}",
            archive.display()
        )),
        _ => (),
    }
    // Under the name that the declarations link, whatever it has there.
    let linked = folder("OUT_DIR");
    fs::write(linked.join("libpitokaenge.a"), bytes).expect("OUT_DIR can be written");
    println!("cargo:rustc-link-search=native={}", linked.display());
}

/// The machine of the first object in an archive, by the head that an object begins with; `None` where it has none that is
/// known here.
fn machine(archive: &[u8]) -> Option<&'static str> {
    let head = archive.windows(4).position(|at| at == b"\x7FELF")?;
    let number = archive.get(head + 18..head + 20)?;
    match u16::from_le_bytes([number[0], number[1]]) {
        40 => Some("arm"),
        62 => Some("x86_64"),
        183 => Some("aarch64"),
        243 if archive[head + 4] == 1 => Some("riscv32"),
        243 => Some("riscv64"),
        _ => None,
    }
}

/// A folder that cargo names to every build script.
fn folder(name: &str) -> PathBuf {
    PathBuf::from(env::var_os(name).expect("cargo sets it"))
}

fn fail(why: &str) -> ! {
    eprintln!("{why}");
    process::exit(1)
}
