// Finds the proved library and links it. Where it is absent the build fails, but with the feature `absent`.
use std::{
    env, fs,
    path::{Path, PathBuf},
};

const VARIABLE: &str = "YUKHTSAMI_LIBRARY";

// A file that the variable names is taken from the root of the repository on.
fn file() -> PathBuf {
    let package = env::var("CARGO_MANIFEST_DIR").expect("set by cargo");
    let root = Path::new(&package).join("../..");
    match env::var_os(VARIABLE) {
        Some(file) => root.join(file),
        None => root.join("target/staticlib/libyukhtsami.a"),
    }
}

// The logic by which the library was proved, as its file tells; empty where it does not.
fn logic(file: &Path) -> String {
    const MARK: &[u8] = b"rattle logic=";
    let bytes = fs::read(file).unwrap_or_default();
    let found = bytes.windows(MARK.len()).position(|part| part == MARK);
    let rest = found.map_or(&[][..], |at| &bytes[at + MARK.len()..]);
    let digits = rest.iter().take_while(|byte| byte.is_ascii_hexdigit());
    digits.map(|byte| char::from(*byte)).collect()
}

fn main() {
    println!("cargo::rerun-if-env-changed={VARIABLE}");
    println!("cargo::rerun-if-changed=build.rs");
    println!("cargo::rustc-check-cfg=cfg(linked)");
    let file = file();
    // A path that is not there makes cargo ask again at the next build.
    println!("cargo::rerun-if-changed={}", file.display());
    println!("cargo::rustc-env=LIBRARY_FILE={}", file.display());
    println!("cargo::rustc-env=LIBRARY_LOGIC={}", logic(&file));
    if !file.is_file() {
        if env::var_os("CARGO_FEATURE_ABSENT").is_none() {
            let file = file.display();
            println!(
                "cargo::error=no {file}: write it by `host/link`, or set {VARIABLE} to its path"
            );
        }
        return;
    }
    let (Some(folder), Some(name)) = (file.parent(), file.file_name()) else {
        return;
    };
    println!("cargo::rustc-cfg=linked");
    println!("cargo::rustc-link-search=native={}", folder.display());
    println!(
        "cargo::rustc-link-lib=static:+verbatim={}",
        name.to_string_lossy()
    );
}
