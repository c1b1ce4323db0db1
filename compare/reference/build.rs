//! Brings the sources of the reference, which do not lie here, into the build.

use std::path::{Path, PathBuf};
use std::{env, fs};

const FOLDER: &str = "DENO_AST_SRC";

fn main() {
    println!("cargo:rerun-if-env-changed={FOLDER}");
    let Some(source) = env::var_os(FOLDER).map(PathBuf::from) else {
        panic!("set {FOLDER} to the folder `src` of the crate deno_ast 0.53.3");
    };
    let out = PathBuf::from(env::var_os("OUT_DIR").expect("cargo sets it"));
    for name in ["cjs_parse.rs", "exports.rs"] {
        fs::write(out.join(name), read(&source, name)).expect("the build's folder takes files");
    }
    let test = script_test(&read(&source, "parsed_source.rs"));
    fs::write(out.join("script_test.rs"), test).expect("the build's folder takes files");
}

fn read(folder: &Path, name: &str) -> String {
    let path = folder.join(name);
    println!("cargo:rerun-if-changed={}", path.display());
    fs::read_to_string(&path).unwrap_or_else(|error| panic!("{}: {error}", path.display()))
}

/// `ProgramRef::compute_is_script`, cut out of its file line for line.
fn script_test(source: &str) -> String {
    let program = source.split_once("impl<'a> ProgramRef<'a> {").expect("the impl of ProgramRef").1;
    let from = program.find("  pub fn compute_is_script(&self) -> bool {").expect("the script test");
    let end = program[from..].find("\n  }\n").expect("its end");
    let test = &program[from..from + end];
    format!("impl ProgramRef<'_> {{\n{test}\n  }}\n}}\n")
}
