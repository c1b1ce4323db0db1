//! The line that tells what is found in a block.

use crate::ParsedSource;
use std::fmt::Write;

/// The script test's answer, then the exports and re-exports by the CommonJS analysis, then those by the ES analysis. A
/// block that is refused gets the line of its fault, by the check of `blocks`.
pub fn answers_line(block: &[u8]) -> String {
    let rows = match blocks::check(block) {
        Ok(rows) => rows,
        Err(fault) => return format!("fault {} layer 2 module 0 place {}", fault.number, fault.place),
    };
    let source = ParsedSource::new(rows);
    let script = source.program_ref().compute_is_script();
    let (cjs, es) = (source.analyze_cjs(), source.analyze_es_runtime_exports());
    let lists = [cjs.exports, cjs.reexports, es.exports, es.reexports].map(|list| names(&list));
    format!("{} {}", u8::from(script), lists.join(" "))
}

/// Each name as a point and its bytes in hexadecimal, with commas between; `-` for none.
fn names(list: &[String]) -> String {
    if list.is_empty() {
        return "-".to_string();
    }
    let name = |name: &String| {
        name.bytes().fold(".".to_string(), |mut words, byte| {
            write!(words, "{byte:02x}").expect("a String takes all");
            words
        })
    };
    list.iter().map(name).collect::<Vec<_>>().join(",")
}
