//! What the reference answers for small programs, by hand from its rules.

use blocks::parse;
use reference::answers_line;

/// Names as the line of answers has them.
fn names(words: &str) -> String {
    let hex = |name: &str| name.bytes().fold(".".to_string(), |line, byte| format!("{line}{byte:02x}"));
    match words {
        "" => "-".to_string(),
        words => words.split(' ').map(hex).collect::<Vec<_>>().join(","),
    }
}

fn check(tree: &str, script: u8, lists: [&str; 4]) {
    let expected = format!("{script} {}", lists.map(names).join(" "));
    assert_eq!(answers_line(&parse(tree).unwrap().block()), expected, "{tree}");
}

const DEFINED: &str = r#"Call(Member(Ident"Object", defineProperty), exports, "a", "#;

#[test]
fn an_assignment_exports_its_property() {
    check("Program:1(Assign(Member(exports, a), Num))", 1, ["a", "", "", ""]);
}

#[test]
fn an_unsafe_getter_takes_the_name_away() {
    let tree = format!(r#"Program:1(Assign(Member(exports, a), Num), {DEFINED}Object(Shorthand"get")))"#);
    check(&tree, 1, ["", "", "", ""]);
}

#[test]
fn a_defined_property_is_exported_by_its_descriptor() {
    check(&format!("Program:1({DEFINED}Object))"), 1, ["a", "", "", ""]);
    check(&format!("Program:1({DEFINED}f))"), 1, ["", "", "", ""]);
}

#[test]
fn an_assigned_module_clears_the_reexports() {
    let tree =
        |right| format!(r#"Program:1(Call(__export, Call(require, "x")), Assign(Member(module, exports), {right}))"#);
    check(&tree(r#"Call(require, "y")"#), 1, ["", "y", "", ""]);
    check(&tree("Call(f)"), 1, ["", "x", "", ""]);
}

#[test]
fn all_declarators_bind_before_the_walk_goes_on() {
    let tree = r#"Program:1(VarDecl(Declarator(b, Call(__export, a)), Declarator(a, Call(require, "x"))))"#;
    check(tree, 1, ["", "x", "", ""]);
}

#[test]
fn a_pattern_exports_its_bound_names() {
    let tree = "Program(ExportDecl(VarDecl(Declarator(ObjectPat(AssignPatProp(a), KeyValuePat(b, ArrayPat(c))), o))))";
    check(tree, 0, ["", "", "a c", ""]);
}

#[test]
fn a_star_reexports_and_a_default_is_listed() {
    check(r#"Program(ExportAll("m"), ExportDefault(x))"#, 0, ["", "", "default", "m"]);
    check(r#"Program(ExportNamed(NamedSpec(a, b), NamedSpec("\uD800"), "m"))"#, 0, ["", "", "b \u{FFFD}", ""]);
}

#[test]
fn typescript_items_tell_of_a_script() {
    check("Program(TsNamespaceExport, TsImportEquals, Import)", 1, ["", "", "", ""]);
    check("Program(TsNamespaceExport, Import, TsImportEquals)", 0, ["", "", "", ""]);
    check("Program", 0, ["", "", "", ""]);
}

#[test]
fn the_reference_looks_through_a_spread() {
    let tree = r#"Program:1(Assign(exports, Call(_interopRequireWildcard, Spread(Call(require, Spread("x"))))))"#;
    check(tree, 1, ["", "x", "", ""]);
    check("Program(ExportDefault(TypeDecl))", 0, ["", "", "default", ""]);
}

#[test]
fn the_walk_skips_a_compound_assignment_and_no_other() {
    check("Program:1(Assign:1(a, Assign(Member(exports, b), Num)))", 1, ["", "", "", ""]);
    check("Program:1(TypeDecl(Assign(Member(exports, b), Num)))", 1, ["b", "", "", ""]);
    check(
        "Program:1(Assign(Spread(Assign(Member(exports, b), Num)), RestPat(Declarator(Member(exports, d)))))",
        1,
        ["b", "", "", ""],
    );
}
