//! Runs each example, and compares what it prints with `examples/output/NAME.txt`, which was written from what the program is to do.
use std::path::{Path, PathBuf};
use std::process::Command;
use std::{env, fs};

/// The folder of the examples: in the repository it lies in `rust`, in the published crate at the top.
fn folder() -> PathBuf {
    let top = Path::new(env!("CARGO_MANIFEST_DIR"));
    [top.join("rust/examples"), top.join("examples")].into_iter().find(|it| it.is_dir()).expect("the crate has examples")
}

/// The names of the files of a folder, without what follows the point.
fn names(folder: &Path, kind: &str) -> Vec<String> {
    let paths = fs::read_dir(folder).unwrap().map(|it| it.unwrap().path());
    let mut out: Vec<String> =
        paths.filter(|it| it.extension().is_some_and(|it| it == kind)).map(|it| it.file_stem().unwrap().to_str().unwrap().to_string()).collect();
    out.sort();
    out
}

/// What an example prints. Cargo has built it before this test, beside the folder of this test's program.
fn printed(name: &str) -> String {
    let built = env::current_exe().unwrap().parent().unwrap().with_file_name("examples").join(format!("{name}{}", env::consts::EXE_SUFFIX));
    let out = if built.exists() {
        Command::new(built).output()
    } else {
        let words = ["run", "--quiet", "--offline", "--example", name, "--manifest-path", concat!(env!("CARGO_MANIFEST_DIR"), "/Cargo.toml")];
        Command::new(env!("CARGO")).args(words).output()
    };
    let out = out.unwrap();
    assert!(out.status.success(), "{name} ends with {}: {}", out.status, String::from_utf8_lossy(&out.stderr));
    String::from_utf8(out.stdout).unwrap()
}

#[test]
fn each_example_prints_what_it_should() {
    let folder = folder();
    let examples = names(&folder, "rs");
    assert_eq!(examples, names(&folder.join("output"), "txt"), "each example has its output, and each output its example");
    for name in examples {
        assert_eq!(printed(&name), fs::read_to_string(folder.join(format!("output/{name}.txt"))).unwrap(), "{name}");
    }
}
