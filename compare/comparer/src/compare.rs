//! Two programs on the same blocks.

use crate::damage::damaged;
use crate::differences::restated;
use crate::generate::Generator;
use crate::random::Random;
use crate::shrink::shrink;
use crate::sides::Side;
use blocks::{Rows, Tree, check};
use std::collections::BTreeMap;
use std::{fmt, io, thread};

/// The two programs: the reference, and the one that answers by the rules.
pub struct Pair {
    pub reference: Side,
    pub port: Side,
}

/// How many blocks are handed over at once: first few, then as many as there were before.
const FEWEST: usize = 250;
const MOST: usize = 4000;

/// What a run is over.
pub struct Plan {
    pub blocks: Blocks,
    /// The run ends after so many disagreements.
    pub most_shown: usize,
}

pub enum Blocks {
    Made { count: usize, seed: u64 },
    Given(Vec<Vec<u8>>),
}

/// What a run found.
#[derive(Default)]
pub struct Outcome {
    pub compared: usize,
    pub lawful: usize,
    pub with_names: usize,
    pub stated: BTreeMap<&'static str, usize>,
    pub disagreements: Vec<Disagreement>,
}

/// A block for which the port's line is not the one that the rules ask for.
pub struct Disagreement {
    /// Which block of the run it is, from 0 on.
    pub number: usize,
    /// The smallest tree found, or the block's bytes where they are no lawful block.
    pub input: Input,
    pub expected: String,
    pub found: String,
}

pub enum Input {
    Tree(Tree),
    Bytes(Vec<u8>),
}

/// The lines for some blocks.
struct Lines {
    /// What the reference says of each block.
    reference: Vec<String>,
    /// What it says of the block that stands for it by the stated differences.
    expected: Vec<String>,
    found: Vec<String>,
    shown: Vec<Vec<&'static str>>,
}

impl Pair {
    /// Compares the programs on all blocks of the plan.
    pub fn run(&self, plan: &Plan) -> io::Result<Outcome> {
        let mut outcome = Outcome::default();
        match &plan.blocks {
            Blocks::Made { count, seed } => self.run_on_made(*count, *seed, plan, &mut outcome)?,
            Blocks::Given(blocks) => self.compare(blocks, plan, &mut outcome)?,
        }
        Ok(outcome)
    }

    fn run_on_made(&self, count: usize, seed: u64, plan: &Plan, outcome: &mut Outcome) -> io::Result<()> {
        let mut generator = Generator::new(seed);
        let mut random = Random::new(!seed);
        while outcome.compared < count && outcome.disagreements.len() < plan.most_shown {
            let next = outcome.compared.clamp(FEWEST, MOST).min(count - outcome.compared);
            let blocks = (0..next).map(|_| make(&mut generator, &mut random)).collect::<Vec<_>>();
            self.compare(&blocks, plan, outcome)?;
        }
        Ok(())
    }

    fn compare(&self, blocks: &[Vec<u8>], plan: &Plan, outcome: &mut Outcome) -> io::Result<()> {
        let lines = self.lines(blocks)?;
        for (at, block) in blocks.iter().enumerate() {
            let number = outcome.compared;
            outcome.compared += 1;
            outcome.lawful += usize::from(check(block).is_ok());
            outcome.with_names += usize::from(lines.expected[at].contains('.'));
            if lines.found[at] != lines.expected[at] {
                outcome.disagreements.push(self.disagreement(number, block)?);
                if outcome.disagreements.len() == plan.most_shown {
                    return Ok(());
                }
            } else if lines.reference[at] != lines.expected[at] {
                lines.shown[at].iter().for_each(|name| *outcome.stated.entry(name).or_default() += 1);
            }
        }
        Ok(())
    }

    fn lines(&self, blocks: &[Vec<u8>]) -> io::Result<Lines> {
        let mut asked = blocks.to_vec();
        let mut shown = Vec::new();
        let mut stands_at = Vec::new();
        for (at, block) in blocks.iter().enumerate() {
            let restated = check(block).ok().map(|rows| restated(&Tree::of_rows(rows)));
            let (place, names) = match restated {
                Some((tree, names)) if !names.is_empty() => {
                    asked.push(tree.block());
                    (asked.len() - 1, names)
                }
                _ => (at, Vec::new()),
            };
            stands_at.push(place);
            shown.push(names);
        }
        let (reference, found) = thread::scope(|scope| {
            let port = scope.spawn(|| self.port.answers(blocks));
            (self.reference.answers(&asked), port.join().expect("the thread ends"))
        });
        let reference = reference?;
        let expected = stands_at.iter().map(|&at| reference[at].clone()).collect();
        Ok(Lines { reference, expected, found: found?, shown })
    }

    fn disagreement(&self, number: usize, block: &[u8]) -> io::Result<Disagreement> {
        let (input, block) = match check(block) {
            Ok(rows) => {
                let tree = self.smallest(rows)?;
                let block = tree.block();
                (Input::Tree(tree), block)
            }
            Err(_) => (Input::Bytes(block.to_vec()), block.to_vec()),
        };
        let mut lines = self.lines(&[block])?;
        Ok(Disagreement { number, input, expected: lines.expected.remove(0), found: lines.found.remove(0) })
    }

    fn smallest(&self, rows: Rows) -> io::Result<Tree> {
        shrink(Tree::of_rows(rows), &mut |trees| {
            let blocks: Vec<Vec<u8>> = trees.iter().map(Tree::block).collect();
            let lines = self.lines(&blocks)?;
            Ok(lines.expected.iter().zip(&lines.found).map(|(expected, found)| expected != found).collect())
        })
    }
}

/// One block: a tree's, at times damaged.
pub fn make(generator: &mut Generator, random: &mut Random) -> Vec<u8> {
    let block = generator.tree().block();
    if random.percent(10) { damaged(random, block) } else { block }
}

impl fmt::Display for Input {
    fn fmt(&self, f: &mut fmt::Formatter) -> fmt::Result {
        match self {
            Input::Tree(tree) => write!(f, "{tree}"),
            Input::Bytes(bytes) => bytes.iter().try_for_each(|byte| write!(f, "{byte:02x}")),
        }
    }
}

impl fmt::Display for Disagreement {
    fn fmt(&self, f: &mut fmt::Formatter) -> fmt::Result {
        writeln!(f, "block {}: {}", self.number, self.input)?;
        write!(f, "  expected {}\n  found    {}", self.expected, self.found)
    }
}

impl fmt::Display for Outcome {
    fn fmt(&self, f: &mut fmt::Formatter) -> fmt::Result {
        let refused = self.compared - self.lawful;
        writeln!(
            f,
            "{} blocks: {} lawful, {refused} refused, {} with names",
            self.compared, self.lawful, self.with_names
        )?;
        for (name, count) in &self.stated {
            writeln!(f, "stated difference, {name}: {count}")?;
        }
        self.disagreements.iter().try_for_each(|it| writeln!(f, "{it}"))?;
        write!(f, "{} disagreements", self.disagreements.len())
    }
}
