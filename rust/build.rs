//! Makes the plain Rust of the proved maps in the build's folder.
use std::path::{Path, PathBuf};
use std::{env, fs, process};

mod added;
mod calls;
mod docs;
mod erase;
mod examples;

use erase::CRATES;

/// What stands before the module of each crate. The calls of clippy.toml are refused there, and those that Rust has only since a later version than the
/// manifest names.
const MODULE: &str =
    "#[allow(dead_code, unused_imports, unused_variables, clippy::all)]\n#[deny(clippy::disallowed_methods, clippy::incompatible_msrv)]\n";

fn stop(message: String) -> ! {
    eprintln!("error: {message}");
    process::exit(1)
}

/// A file of Rattle: its crate, its path from here, its path in the crate, and its text.
struct Source {
    own: &'static str,
    path: PathBuf,
    name: PathBuf,
    text: String,
}

/// Collects the files of Rattle in a folder.
fn files(folder: &Path, out: &mut Vec<PathBuf>) -> std::io::Result<()> {
    let mut paths = fs::read_dir(folder)?.map(|it| Ok(it?.path())).collect::<std::io::Result<Vec<_>>>()?;
    paths.sort();
    for path in paths {
        if path.is_dir() {
            files(&path, out)?;
        } else if path.extension().is_some_and(|it| it == "rt") {
            out.push(path);
        }
    }
    Ok(())
}

fn sources(own: &'static str) -> Vec<Source> {
    let base = PathBuf::from("crates").join(own).join("src");
    let mut paths = Vec::new();
    if let Err(e) = files(&base, &mut paths) {
        stop(format!("{}: {e}. The proved text of the maps has to stand there: build in a whole clone of the repository", base.display()));
    }
    let read = |path: PathBuf| {
        let bytes = fs::read(&path).unwrap_or_else(|e| stop(format!("{}: {e}: the file has to be readable", path.display())));
        let text = String::from_utf8(bytes).unwrap_or_else(|e| {
            let line = e.as_bytes()[..e.utf8_error().valid_up_to()].iter().filter(|&&it| it == b'\n').count() + 1;
            stop(format!("{}:{line}: the text is not UTF-8: write the file in UTF-8", path.display()))
        });
        Source { own, name: path.strip_prefix(&base).expect("the file lies there").to_path_buf(), path, text }
    };
    paths.into_iter().map(read).collect()
}

fn write(path: &Path, text: &str) {
    let folder = path.parent().expect("a file has a folder");
    if let Err(e) = fs::create_dir_all(folder).and_then(|()| fs::write(path, text)) {
        stop(format!("{}: {e}. The build writes there: set CARGO_TARGET_DIR to a folder that can be written", path.display()));
    }
}

fn main() {
    println!("cargo::rerun-if-changed=crates");
    println!("cargo::rerun-if-changed=rust");
    let out = PathBuf::from(
        env::var_os("OUT_DIR").unwrap_or_else(|| stop("OUT_DIR is not set: cargo runs this program, and names the folder by it".into())),
    );
    let all: Vec<Source> = CRATES.into_iter().flat_map(sources).collect();
    let (mut names, mut used, mut refused) = (erase::Names::default(), erase::Used::default(), 0);
    let mut applied = docs::Applied::default();
    for it in &all {
        if let Err(why) = erase::names(&it.text, &mut names) {
            stop(format!("{}:{}: {}: the eraser does not know this: write it otherwise", it.path.display(), why.line, why.why));
        }
    }
    for it in &all {
        match erase::erased(&it.text, it.own, &CRATES, &names, &mut used) {
            Ok(text) => {
                let shown = calls::shown(&examples::tested(&docs::readable(&text, &mut applied), it.own), it.own);
                let text = added::with(&shown, it.own, &it.name.to_string_lossy(), &mut used);
                write(&out.join(it.own).join(it.name.with_extension("rs")), &text);
            }
            Err(why) => {
                eprintln!("error: {}:{}: {}", it.path.display(), why.line, why.why);
                refused += 1;
            }
        }
    }
    if refused > 0 {
        stop(format!(
            "the eraser refused {refused} files for lines that it does not know: write them otherwise, or teach rust/erase.rs what they are in Rust"
        ));
    }
    let unused = [erase::unused(&used), added::unused(&used)].concat();
    if !unused.is_empty() {
        stop(format!("no file has what these rules and words of rust/erase.rs and rust/added.rs are for, so take them out:\n{}", unused.join("\n")));
    }
    if let left @ [_, ..] = docs::left_over(&applied).as_slice() {
        stop(format!("rust/docs.rs: no docs have {left:?}"));
    }
    let maps: String = CRATES.iter().map(|own| format!("{MODULE}#[path = \"{own}/lib.rs\"]\nmod {own};\n")).collect();
    write(&out.join("maps.rs"), &maps);
}
