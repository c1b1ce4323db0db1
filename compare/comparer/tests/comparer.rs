//! What the comparison is made of: trees, their reductions, the stated differences, wrong readings.

use blocks::{Kind, Tree, check, parse};
use comparer::compare::make;
use comparer::differences::restated;
use comparer::generate::Generator;
use comparer::random::Random;
use comparer::shrink::shrink;
use comparer::wrong;

#[test]
fn made_trees_are_lawful_or_too_deep() {
    let mut generator = Generator::new(3);
    let (mut lawful, mut too_deep) = (0, 0);
    for _ in 0..5000 {
        let tree = generator.tree();
        match check(&tree.block()) {
            Ok(rows) => {
                assert_eq!(Tree::of_rows(rows), tree);
                lawful += 1;
            }
            Err(fault) => {
                assert_eq!(fault.number, 3, "{tree}");
                too_deep += 1;
            }
        }
    }
    assert!(lawful > 4900 && too_deep > 0, "{lawful} lawful, {too_deep} too deep");
}

#[test]
fn made_trees_hold_every_kind() {
    let mut generator = Generator::new(4);
    let trees: Vec<Tree> = (0..1000).map(|_| generator.tree()).collect();
    for kind in Kind::all_but_program() {
        assert!(trees.iter().any(|tree| tree.paths().iter().any(|path| tree.at(path).kind == kind)), "{kind:?}");
    }
}

#[test]
fn a_seed_makes_the_same_blocks_again() {
    let blocks = |seed| {
        let (mut generator, mut random) = (Generator::new(seed), Random::new(seed));
        (0..200).map(|_| make(&mut generator, &mut random)).collect::<Vec<_>>()
    };
    assert_eq!(blocks(5), blocks(5));
    assert_ne!(blocks(5), blocks(6));
}

#[test]
fn damaged_blocks_get_each_refusal() {
    let (mut generator, mut random) = (Generator::new(7), Random::new(7));
    let mut refused = [0; 6];
    for _ in 0..50_000 {
        if let Err(fault) = check(&make(&mut generator, &mut random)) {
            refused[fault.number as usize] += 1;
        }
    }
    assert!(refused[1..].iter().all(|&count| count > 0), "{refused:?}");
}

#[test]
fn a_tree_shrinks_to_what_is_looked_for() {
    let tree =
        parse(r#"Program:1(Block(a, Call(f, Assign:1(Member(exports, b), Num))), Return, Seq(c, "d"))"#).unwrap();
    let holds = |tree: &Tree| tree.paths().iter().any(|path| tree.at(path).kind == Kind::Assign);
    let smallest = shrink(tree, &mut |trees| Ok(trees.iter().map(holds).collect())).unwrap();
    assert_eq!(smallest.to_string(), "Program(Assign(Other, Other))");
}

fn restates(before: &str, after: &str, differences: usize) {
    let (tree, shown) = restated(&parse(before).unwrap());
    assert_eq!((tree.to_string().as_str(), shown.len()), (after, differences));
}

#[test]
fn the_stated_differences_are_restated() {
    restates(r#"Program(Call(require, Spread("x")))"#, "Program(Call(require, Spread(Other)))", 1);
    restates(
        r#"Program(Call(_interopRequireWildcard, Spread(Call(require, "x"))))"#,
        r#"Program(Call(_interopRequireWildcard, Spread(Other(require, "x"))))"#,
        1,
    );
    restates("Program(Call(require, Spread(Call(require))))", "Program(Call(require, Spread(Call(require))))", 0);
    restates(r#"Program(Call(require, "x", Spread(a)))"#, r#"Program(Call(require, "x", Spread(a)))"#, 0);
    restates("Program(Call(__export, Spread(a)))", "Program(Call(__export, Spread(a)))", 0);
    restates("Program(ExportDefault(TypeDecl(a)))", "Program(Import(TypeDecl(a)))", 1);
    restates("Program(Block(ExportDefault(TypeDecl)))", "Program(Block(ExportDefault(TypeDecl)))", 0);
    restates("Program(ExportDefault(a))", "Program(ExportDefault(a))", 0);
}

#[test]
fn wrong_readings_are_read() {
    let readings =
        wrong::parse("# list\n\nname: n\nfile: f\nold: a\\nb\nnew:\nfile: g\nold: c\nnew: d\\\\n\nequivalent: e\n");
    let readings = readings.unwrap();
    assert_eq!(readings.len(), 1);
    assert_eq!(readings[0].name, "n");
    assert_eq!(readings[0].equivalent.as_deref(), Some("e"));
    assert!(wrong::parse("old: a").is_err());
    assert!(wrong::parse("name").is_err());
}

#[test]
fn a_deep_tree_shrinks_in_few_steps() {
    let mut tree = parse("Call(a)").unwrap();
    for _ in 0..250 {
        tree = Tree::new(Kind::Assign, vec![Tree::leaf(Kind::Other), tree]);
    }
    let tree = Tree::new(Kind::Program, vec![tree]);
    let holds = |tree: &Tree| tree.paths().iter().any(|path| tree.at(path).kind == Kind::Call);
    let mut steps = 0;
    let smallest = shrink(tree, &mut |trees| {
        steps += 1;
        Ok(trees.iter().map(holds).collect())
    });
    assert_eq!(smallest.unwrap().to_string(), "Program(Call(Other))");
    assert!(steps < 30, "{steps}");
}
