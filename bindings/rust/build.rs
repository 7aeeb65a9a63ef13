//! Links the proved library, `libyakyrombe.a`, and `libyakyrombe-journal.a` beside it. The build
//! looks for them, in this order, in the folder that `YAKYROMBE_LIB` names, in the folder that
//! pkg-config names, in `lib` of the crate, and in `lib` of the repository or archive that has the
//! crate as `bindings/rust`. Without them the crate can be checked, documented and packed, and
//! warnings say what a program needs to be linked.

use std::env;
use std::path::{Path, PathBuf};
use std::process::{exit, Command};

const FOLDER: &str = "YAKYROMBE_LIB";
const LIBRARY: &str = "libyakyrombe.a";
const JOURNAL: &str = "libyakyrombe-journal.a";

fn main() {
    for variable in
        [FOLDER, "PKG_CONFIG", "PKG_CONFIG_PATH", "PKG_CONFIG_LIBDIR", "PKG_CONFIG_ALLOW_CROSS"]
    {
        println!("cargo:rerun-if-env-changed={variable}");
    }
    match find() {
        Ok(folder) => {
            for library in [LIBRARY, JOURNAL] {
                println!("cargo:rerun-if-changed={}", folder.join(library).display());
            }
            println!("cargo:rustc-link-search=native={}", folder.display());
            // A linker wants the second behind the first, which uses it.
            println!("cargo:rustc-link-lib=static=yakyrombe-journal");
            println!("cargo:rustc-link-lib=static=yakyrombe");
            // The feature `model` looks for yak-explore there.
            println!("cargo:rustc-env=YAKYROMBE_FOLDER={}", folder.display());
        }
        Err(why) if env::var_os(FOLDER).is_some() => {
            eprintln!("{why}");
            exit(1);
        }
        Err(why) => {
            for line in why.lines() {
                println!("cargo:warning={line}");
            }
            // The script runs again until the library is there.
            for folder in own_folders() {
                println!("cargo:rerun-if-changed={}", folder.join(LIBRARY).display());
            }
            println!("cargo:rustc-env=YAKYROMBE_FOLDER=");
        }
    }
}

/// The folder that has the library, or what to do if none has.
fn find() -> Result<PathBuf, String> {
    if let Some(named) = env::var_os(FOLDER) {
        return has_library(PathBuf::from(&named)).ok_or_else(|| {
            format!(
                "{FOLDER} names {}, which lacks {LIBRARY} or {JOURNAL}: name the folder that has both",
                Path::new(&named).display()
            )
        });
    }
    let own = own_folders();
    if let Some(found) = by_pkg_config().into_iter().chain(own.clone()).find_map(has_library) {
        return Ok(found);
    }
    let [lib, above] = own.map(|it| it.display().to_string());
    Err(format!(
        "{LIBRARY} and {JOURNAL} are not there, so no program can be linked. One of these helps:\n\
         - unpack a release of Yakyrombe, or build it by checks/c_library at the top of its \
         repository, and name its folder lib: \
         {FOLDER}=/path/to/lib cargo build\n\
         - install it (make install), so that `pkg-config --modversion yakyrombe` says {}\n\
         - put both into {lib} or {above}",
        env!("CARGO_PKG_VERSION")
    ))
}

/// The absolute path of the folder, if it has the libraries.
fn has_library(folder: PathBuf) -> Option<PathBuf> {
    let is_there = [LIBRARY, JOURNAL].iter().all(|it| folder.join(it).is_file());
    is_there.then(|| folder.canonicalize().unwrap_or(folder))
}

fn own_folders() -> [PathBuf; 2] {
    let own = PathBuf::from(
        env::var_os("CARGO_MANIFEST_DIR").expect("cargo names the folder of the crate"),
    );
    let above = own.ancestors().nth(2).unwrap_or(&own).join("lib");
    [own.join("lib"), above]
}

/// The folder of an installed library of this version. pkg-config knows only the build machine, so
/// it is not asked in a cross build.
fn by_pkg_config() -> Option<PathBuf> {
    if env::var_os("HOST") != env::var_os("TARGET")
        && env::var_os("PKG_CONFIG_ALLOW_CROSS").is_none()
    {
        return None;
    }
    let program = env::var_os("PKG_CONFIG").unwrap_or_else(|| "pkg-config".into());
    let wanted = concat!("yakyrombe = ", env!("CARGO_PKG_VERSION"));
    let told = Command::new(program).args(["--variable=libdir", wanted]).output().ok()?;
    let folder = String::from_utf8(told.stdout).ok()?;
    (told.status.success() && !folder.trim().is_empty()).then(|| PathBuf::from(folder.trim()))
}
