//! Finds the library libscrypt_c: first the file that SCRYPT_C_LIBRARY names, or the library in the
//! folder that it names; then the static library that this crate has for the target; then the
//! library that pkg-config finds. It takes nothing from the folders around the crate, where another
//! user may have put anything. For a target without a library it prints an error.

use std::path::Path;
use std::process::Command;

/// The property of the target with this name, from cargo.
fn target_has(name: &str) -> String {
    std::env::var(format!("CARGO_CFG_TARGET_{name}")).unwrap_or_default()
}

/// Links the library in a file, or in a folder: the static one, if the folder has both.
fn link(place: &Path) -> Result<(), String> {
    let is_windows = target_has("OS") == "windows";
    let shared = if is_windows { "libscrypt_c.dll.a" } else { "libscrypt_c.so" };
    let mut file = place.to_path_buf();
    if place.is_dir() {
        let inside = ["libscrypt_c.a", shared].map(|name| place.join(name));
        file = inside.iter().find(|it| it.exists()).unwrap_or(&inside[1]).clone();
    }
    if !file.exists() {
        return Err(format!("there is no {}", file.display()));
    }
    println!("cargo:rerun-if-changed={}", file.display());
    println!("cargo:rustc-link-search=native={}", file.parent().unwrap_or(place).display());
    let name = file.file_name().unwrap_or_default().to_string_lossy();
    match name.strip_suffix(".a") {
        Some(name) if !name.ends_with(".dll") => {
            println!("cargo:rustc-link-lib=static={}", name.strip_prefix("lib").unwrap_or(name));
            // The stack protector of MinGW, which is inside, takes random bytes from the last.
            let others: &[_] = if is_windows { &["bcrypt", "advapi32"] } else { &["pthread"] };
            others.iter().for_each(|it| println!("cargo:rustc-link-lib={it}"));
        }
        _ => println!("cargo:rustc-link-lib=dylib=scrypt_c"),
    }
    Ok(())
}

/// Links the library that pkg-config finds. For a target other than the machine's own, the caller
/// has to name a pkg-config.
fn link_by_pkg_config() -> Result<(), String> {
    let (host, target) = (std::env::var("HOST"), std::env::var("TARGET"));
    let program = match std::env::var("PKG_CONFIG") {
        Ok(program) => program,
        Err(_) if host == target => "pkg-config".to_string(),
        Err(_) => {
            let target = target.unwrap_or_default();
            return Err(format!("PKG_CONFIG does not name the pkg-config of {target}"));
        }
    };
    let found = Command::new(&program)
        .args(["--variable=libdir", "scrypt_c"])
        .output()
        .map_err(|error| format!("{program}: {error}"))?;
    if !found.status.success() {
        return Err(format!("{program} does not find scrypt_c"));
    }
    link(Path::new(String::from_utf8_lossy(&found.stdout).trim()))
}

fn main() {
    for name in ["SCRYPT_C_LIBRARY", "PKG_CONFIG", "PKG_CONFIG_PATH"] {
        println!("cargo:rerun-if-env-changed={name}");
    }
    let crate_folder = std::env::var_os("CARGO_MANIFEST_DIR").expect("cargo runs this");
    let bundled = format!("libscrypt_c_{}_{}.a", target_has("OS"), target_has("ARCH"));
    let bundled = Path::new(&crate_folder).join(bundled);
    let linked = match std::env::var_os("SCRYPT_C_LIBRARY") {
        _ if target_has("ENV") == "msvc" => Err("for Windows it is for the GNU tools".to_string()),
        Some(place) => link(Path::new(&place)),
        None if bundled.exists() => link(&bundled),
        None => link_by_pkg_config(),
    };
    if let Err(why) = linked {
        eprintln!(
            "scrypt_c needs the library libscrypt_c: {why}. Use the crate of a release, which has \
             it; or run make lib in the repository; or install it (make lib install, or a \
             release's package); or let SCRYPT_C_LIBRARY name its folder or its file."
        );
        std::process::exit(1);
    }
}
