//! The reference, deno_ast 0.53.3: its CommonJS analysis, its analysis of ES exports and its script test, compiled from
//! their own sources over the stand-in tree, and asked about tree blocks.

mod answer;
mod decode;

#[allow(clippy::all)]
mod cjs_parse {
    include!(concat!(env!("OUT_DIR"), "/cjs_parse.rs"));
}

#[allow(clippy::all)]
mod exports {
    include!(concat!(env!("OUT_DIR"), "/exports.rs"));
}

#[allow(clippy::all)]
mod script_test {
    use crate::ProgramRef;
    use crate::swc::ast::{ModuleDecl, ModuleItem};

    include!(concat!(env!("OUT_DIR"), "/script_test.rs"));
}

/// The names by which the sources call the stand-ins.
mod swc {
    pub use swc_ecma_ast as ast;
    pub use swc_ecma_ast::atoms;
    pub use swc_ecma_ast::visit as ecma_visit;

    pub mod utils {
        pub use swc_ecma_ast::find_pat_ids;
    }
}

pub use answer::answers_line;
pub use exports::ModuleExportsAndReExports;

use swc::ast::{Module, Program, Script};

/// A program, as the sources borrow it.
#[derive(Clone, Copy)]
pub enum ProgramRef<'a> {
    Module(&'a Module),
    Script(&'a Script),
}

/// A program with what was parsed of it; here the tree alone.
pub struct ParsedSource {
    program: Program,
}

impl ParsedSource {
    /// The program in the rows of a lawful block.
    pub fn new(rows: blocks::Rows) -> ParsedSource {
        ParsedSource { program: decode::program(rows) }
    }

    pub fn program_ref(&self) -> ProgramRef<'_> {
        match &self.program {
            Program::Module(module) => ProgramRef::Module(module),
            Program::Script(script) => ProgramRef::Script(script),
        }
    }
}
