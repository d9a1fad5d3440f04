//! Finds the library: in the folder that `BOGZHAMI_LIB_DIR` names, in `ffi/out` of the checkout that the crate is in, or where
//! pkg-config says that it is.
use std::env;
use std::ffi::{OsStr, OsString};
use std::path::{Path, PathBuf};
use std::process::{exit, Command};

const FOLDER: &str = "BOGZHAMI_LIB_DIR";
const STATIC: &str = "libbogzhami.a";
const SHARED: &str = "libbogzhami.so";
/// What changes where the library is found.
const VARIABLES: [&str; 5] = [FOLDER, "PKG_CONFIG", "PKG_CONFIG_PATH", "PKG_CONFIG_LIBDIR", "PKG_CONFIG_SYSROOT_DIR"];

fn main() {
    for name in VARIABLES {
        println!("cargo:rerun-if-env-changed={name}");
    }
    println!("cargo:rerun-if-changed=build.rs");
    let linked = match env::var_os(FOLDER).filter(|folder| !folder.is_empty()) {
        Some(folder) => link_named(&folder),
        None => link_found(),
    };
    if let Err(problem) = linked {
        eprintln!("bogzhami: {problem}");
        exit(1);
    }
}

/// Links the library of the folder that the variable names. A relative path is from the folder that cargo was called in, as
/// the shell says, or else from that of the crate, in which this program runs.
fn link_named(folder: &OsStr) -> Result<(), String> {
    let mut tried = Vec::new();
    if Path::new(folder).is_relative() {
        println!("cargo:rerun-if-env-changed=PWD");
        tried.extend(env::var_os("PWD").map(|called_in| Path::new(&called_in).join(folder)));
        tried.extend(env::current_dir().map(|crate_folder| crate_folder.join(folder)));
        tried.dedup();
    } else {
        tried.push(PathBuf::from(folder));
    }
    if tried.iter().any(|place| link_from(place)) {
        return Ok(());
    }
    let places: Vec<String> = tried.iter().map(|place| place.display().to_string()).collect();
    let (folder, places) = (folder.to_string_lossy(), places.join(" or in "));
    let what = format!("{FOLDER} is {folder}, and no {STATIC} and no {SHARED} is in {places}");
    Err(format!("{what}. ffi/build makes them in ffi/out of the repository"))
}

/// Links the library of the checkout, or else that of pkg-config.
fn link_found() -> Result<(), String> {
    let built = checkout().map(|top| top.join("ffi").join("out"));
    if built.as_deref().map_or(false, link_from) {
        return Ok(());
    }
    link_as_told().map_err(|told| match built {
        Some(folder) => format!("there is no library in {}, where ffi/build makes it; {told}", folder.display()),
        None => told,
    })
}

/// The checkout of the repository that the crate is in, if it is in one.
fn checkout() -> Option<PathBuf> {
    let folder = env::current_dir().ok()?;
    folder.ancestors().find(|above| above.join("ffi").join("bogzhami.h").exists()).map(Path::to_path_buf)
}

/// Links the static library of a folder, or the shared one if that is all there is; returns false if there is none.
fn link_from(folder: &Path) -> bool {
    println!("cargo:rerun-if-changed={}", folder.join(STATIC).display());
    let kind = match (folder.join(STATIC).exists(), folder.join(SHARED).exists()) {
        (true, _) => "static",
        (false, true) => "dylib",
        (false, false) => return false,
    };
    println!("cargo:rustc-link-search=native={}", folder.display());
    println!("cargo:rustc-link-lib={kind}=bogzhami");
    true
}

/// Links what pkg-config says.
fn link_as_told() -> Result<(), String> {
    let program = env::var_os("PKG_CONFIG").unwrap_or_else(|| OsString::from("pkg-config"));
    let wanted = concat!("bogzhami >= ", env!("CARGO_PKG_VERSION"));
    let told = Command::new(&program).args(["--libs", wanted]).output();
    let told =
        told.map_err(|error| format!("{FOLDER} is not set, and {} can't be run: {error}", program.to_string_lossy()))?;
    if !told.status.success() {
        let words = String::from_utf8_lossy(&told.stderr);
        return Err(format!("{FOLDER} is not set, and pkg-config finds no library:\n{}", words.trim_end()));
    }
    for word in words_of(&String::from_utf8_lossy(&told.stdout)) {
        link_word(&word);
    }
    Ok(())
}

/// The words of a line as a shell reads them, in which a blank after a backslash ends no word.
fn words_of(line: &str) -> Vec<String> {
    let (mut words, mut word, mut letters) = (Vec::new(), String::new(), line.chars());
    while let Some(letter) = letters.next() {
        match letter {
            '\\' => word.extend(letters.next()),
            letter if letter.is_whitespace() => words.push(std::mem::take(&mut word)),
            letter => word.push(letter),
        }
    }
    words.push(word);
    words.retain(|word| !word.is_empty());
    words
}

/// Hands a word of pkg-config on to cargo: a folder to look in, or a library.
fn link_word(word: &str) {
    if let Some(folder) = word.strip_prefix("-L") {
        println!("cargo:rustc-link-search=native={folder}");
    } else if let Some(name) = word.strip_prefix("-l") {
        println!("cargo:rustc-link-lib={name}");
    }
}
