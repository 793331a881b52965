//! Lays the Rust out in the build's own folder under the names a compiler looks for, no byte of it
//! changed. Where src/probe has to see private items, a file of ours includes the original and
//! names the probe behind it. The others are copied: `mod` looks for its modules beside itself,
//! and `include!` refuses a text that begins with an inner comment or attribute, as they do.
use std::path::{Path, PathBuf};
use std::{env, fs};

const VARIABLE: &str = "USBSS_SOURCE";

/// Where a file of the Rust lies; the build ends if it can't be read.
fn original(folder: &Path, name: &str) -> PathBuf {
    for ending in ["rs.txt", "rs"] {
        let path = folder.join(format!("{name}.{ending}"));
        if fs::File::open(&path).is_ok_and(|file| file.metadata().is_ok_and(|told| told.is_file())) {
            println!("cargo:rerun-if-changed={}", path.display());
            return path;
        }
    }
    eprintln!("missing: {}/{name}.rs.txt (or .rs).", folder.display());
    match env::var_os(VARIABLE) {
        Some(_) => eprintln!("{VARIABLE} has to name the folder that has ch32-hal's `src` in it."),
        None => eprintln!("{VARIABLE} isn't set; it may name another folder that has ch32-hal's `src` in it."),
    }
    std::process::exit(1)
}

fn main() {
    let own = PathBuf::from(env::var("CARGO_MANIFEST_DIR").unwrap());
    let out = PathBuf::from(env::var("OUT_DIR").unwrap());
    println!("cargo:rerun-if-env-changed={VARIABLE}");
    println!("cargo:rerun-if-changed=build.rs");
    let folder = match env::var_os(VARIABLE) {
        // A relative one counts from the folder `oracle`, where cargo is called.
        Some(named) => own.join("..").join(named),
        // Beside the repository.
        None => own.ancestors().nth(3).unwrap_or(&own).join("shared/docs/src"),
    }
    .join("src");

    fs::create_dir_all(out.join("usbss")).unwrap();
    fs::create_dir_all(out.join("internal")).unwrap();
    for (name, probed) in [
        ("usbss/mod", false),
        ("usbss/regs", false),
        ("usbss/device", true),
        ("usbss/endpoint", true),
        ("usbss/control", true),
        ("internal/drop", false),
        ("internal/delay", false),
    ] {
        let path = original(&folder, name);
        let text = if probed {
            let probe = own.join("src/probe").join(Path::new(name).file_name().unwrap()).with_extension("rs");
            format!("include!({path:?});\n#[path = {probe:?}]\npub mod probe;\n").into_bytes()
        } else {
            fs::read(path).unwrap()
        };
        fs::write(out.join(format!("{name}.rs")), text).unwrap();
    }
    // The host role isn't part of the port. What stands in its place sees the private items of mod.rs.
    fs::write(out.join("usbss/host.rs"), format!("#[path = {:?}]\npub mod probe;\n", own.join("src/probe/host.rs")))
        .unwrap();
    fs::write(out.join("internal/mod.rs"), "pub mod delay;\npub mod drop;\n").unwrap();
    fs::write(
        out.join("root.rs"),
        format!(
            "#[path = {:?}]\npub mod usbss;\n#[path = {:?}]\nmod internal;\n",
            out.join("usbss/mod.rs"),
            out.join("internal/mod.rs")
        ),
    )
    .unwrap();
}
