//! Writes the subjects of the comparison: the model, and for each mutant a copy of the model with
//! its changes.

mod mutations;

use mutations::{Mutation, MUTATIONS};
use std::path::{Path, PathBuf};
use std::{env, fs};

fn main() {
    let here = PathBuf::from(env::var("CARGO_MANIFEST_DIR").expect("set by cargo"));
    let out = PathBuf::from(env::var("OUT_DIR").expect("set by cargo"));
    let model = here.join("../src");
    let adapter = here.join("src/adapter.rs");
    let mut text = subject("real", "pub use ::model;", &adapter);
    for mutation in MUTATIONS {
        let copy = out.join(mutation.name);
        copy_changed(&model, &copy, mutation);
        let source = format!("#[path = {:?}]\n    pub mod model;", copy.join("lib.rs"));
        text += &subject(mutation.name, &source, &adapter);
    }
    text += "pub const MUTANTS: &[(&str, crate::subject::Subject)] = &[\n";
    for mutation in MUTATIONS {
        text += &format!("    ({0:?}, {0}::adapter::SUBJECT),\n", mutation.name);
    }
    text += "];\n";
    fs::write(out.join("subjects.rs"), text).expect("the build folder can be written");
    println!("cargo::rerun-if-changed={}", model.display());
    println!("cargo::rerun-if-changed={}", adapter.display());
    println!("cargo::rerun-if-changed=mutations.rs");
    println!("cargo::rerun-if-changed=build.rs");
}

/// A module with a model and its adapter.
fn subject(name: &str, model: &str, adapter: &Path) -> String {
    let adapter = format!("#[path = {adapter:?}]\n    pub mod adapter;");
    format!("#[allow(unused)]\npub mod {name} {{\n    {model}\n    {adapter}\n}}\n")
}

/// Copies the model's files, but its tests and programs, with the changes made in them.
fn copy_changed(model: &Path, copy: &Path, mutation: &Mutation) {
    fs::create_dir_all(copy).expect("the build folder can be written");
    for entry in fs::read_dir(model).expect("the model's folder is there") {
        let path = entry.expect("the model's folder can be read").path();
        let name = path.file_name().and_then(|name| name.to_str());
        let Some(name) = name.filter(|name| name.ends_with(".rs") && *name != "tests.rs") else {
            continue;
        };
        let text = fs::read_to_string(&path).expect("the model's files can be read");
        let text = changed(name, text, mutation)
            .replace("#[cfg(test)]\nmod tests;\n", "")
            .replace("crate::", "super::");
        fs::write(copy.join(name), text).expect("the build folder can be written");
    }
}

/// A file's text with the changes that are for it. A text to be changed that does not stand there
/// exactly once stops the build.
fn changed(name: &str, mut text: String, mutation: &Mutation) -> String {
    for change in mutation.changes.iter().filter(|change| change.file == name) {
        let count = text.matches(change.from).count();
        assert!(
            count == 1,
            "mutant {}: the text to change stands {count} times in {name}",
            mutation.name
        );
        text = text.replace(change.from, change.to);
    }
    text
}
