//! Sheets about the places of tables: the library judges clauses in a block of words, one of three by the floor's marks and the plan's steps. Within it
//! the texts of counts are judged in pairs of places, of two operands first the one that needs more pairs, at most six. Every number of steps and of
//! marks, and texts of every need.

use crate::clauses::{Clauses, BINARY, UNARY};
use crate::compare::{both, tell};
use crate::damage::Triple;
use crate::faults::Records;
use crate::formula::{Clause, Node, Op};
use crate::narrow;
use crate::print::Printer;
use crate::random::Random;
use crate::sheet;
use crate::verdict::Verdict;
use crate::world::World;

/// Words of the blocks.
const BLOCKS: [usize; 3] = [500, 1000, 2944];

/// The most pairs that a text needs.
pub const MOST_PAIRS: usize = 6;

/// The most nodes of a text: its count is one more.
const MOST: usize = sheet::MOST_NODES - 1;

/// What is counted; each has to be met LEAST times.
const WAYS: [&str; 20] = [
    "in 500 words",
    "in 1,000",
    "in 2,944",
    "just in 500 or 1,000",
    "the full load",
    "texts that need no pair",
    "one",
    "two",
    "three",
    "four",
    "five",
    "six",
    "six by 64 leaves",
    "texts of 127 nodes",
    "U or R whose left operand needs more",
    "whose right one does",
    "ten operators with one operand in a chain",
    "a count behind a count",
    "17",
    "16",
];

const LEAST: usize = 10;

/// To which side a text leans: there stands the operand that needs more.
#[derive(Clone, Copy, PartialEq)]
pub enum Lean {
    Left,
    Right,
    /// Both need the same.
    Neither,
    Random,
}

pub const LEANS: [Lean; 4] = [Lean::Left, Lean::Right, Lean::Neither, Lean::Random];

#[derive(Default)]
pub struct Blocks {
    checks: usize,
    accepted: usize,
    ways: [usize; WAYS.len()],
}

/// Looks at all of them; the first check that comes out otherwise is told.
pub fn run() -> Result<Blocks, String> {
    let mut blocks = Blocks::default();
    for h in 1..=64 {
        for marks in 0..=32 {
            for need in 0..=MOST_PAIRS {
                for (k, lean) in LEANS.into_iter().enumerate() {
                    // Away from the limits two ways to lean do.
                    if at_limit(marks, h) || (h + marks + need + k) % 2 == 0 {
                        let case = ((h * 33 + marks) * 7 + need) * LEANS.len() + k;
                        blocks.look(h, marks, need, lean, case as u64)?;
                    }
                }
            }
        }
    }
    match blocks.ways.iter().position(|count| *count < LEAST) {
        Some(way) => Err(format!("blocks: {} less than {LEAST} times", WAYS[way])),
        None => Ok(blocks),
    }
}

/// The words of the tables: those of the marks, of all, of none and of the pairs.
fn words(marks: usize, h: usize) -> usize {
    (marks + 2 + 2 * MOST_PAIRS) * h
}

/// Whether a step or a mark more takes another block, or the tables fill one.
fn at_limit(marks: usize, h: usize) -> bool {
    let block = |marks, h| BLOCKS.iter().position(|room| words(marks, h) <= *room);
    block(marks, h) != block(marks, h + 1) || block(marks, h) != block(marks + 1, h)
}

impl Blocks {
    pub fn print(&self) {
        let ways: Vec<String> = WAYS
            .iter()
            .zip(self.ways)
            .map(|(way, count)| format!("{way} {count}"))
            .collect();
        println!(
            "{} checks about the places of tables, {} accepted; {}",
            self.checks,
            self.accepted,
            ways.join(", ")
        );
    }

    fn look(
        &mut self,
        h: usize,
        marks: usize,
        need: usize,
        lean: Lean,
        case: u64,
    ) -> Result<(), String> {
        let seed = need as u64;
        let mut random = Random::new(seed, case);
        let drift = random.range(0, 16);
        let d = random.pick(&[0, 0, 16, drift]);
        let world = with_marks(&mut random, h, marks, d);
        let rules = rules(&mut random, &world, need, lean);
        let (floor, plan) = Records::of(&world).files();
        let triple = Triple { floor, plan, rules };
        let verdict = both(&triple).inspect_err(|text| tell(&triple, seed, case, text))?;
        self.checks += 1;
        self.accepted += (verdict == Verdict::ACCEPTED) as usize;
        self.note(&triple.rules, h, marks, verdict);
        Ok(())
    }

    /// Counts what a judged sheet meets.
    fn note(&mut self, rules: &[u8], h: usize, marks: usize, verdict: Verdict) {
        let taken = words(marks, h);
        let block = BLOCKS.iter().position(|room| taken <= *room);
        self.ways[block.expect("a block for every load")] += 1;
        self.ways[3] += BLOCKS[..2].contains(&taken) as usize;
        self.ways[4] += (taken == BLOCKS[2]) as usize;
        self.ways[18] += (verdict.number == 17) as usize;
        self.ways[19] += (verdict.number == 16) as usize;
        for clause in sheet::read(rules).expect("a sheet") {
            let mut counts = 0;
            for Node { op, left, .. } in &clause.nodes {
                if let Op::Count(_) = op {
                    counts += 1;
                    self.note_text(&clause, *left);
                }
            }
            self.ways[17] += (counts > 1) as usize;
        }
    }

    fn note_text(&mut self, clause: &Clause, text: usize) {
        let needed = need(clause, text);
        assert!(needed <= MOST_PAIRS, "a text that needs more pairs");
        let (nodes, leaves) = size(clause, text);
        self.ways[5 + needed] += 1;
        self.ways[12] += (needed == MOST_PAIRS && leaves == 64) as usize;
        self.ways[13] += (nodes == MOST) as usize;
        let [left, right] = uneven(clause, text);
        self.ways[14] += left as usize;
        self.ways[15] += right as usize;
        self.ways[16] += (chain(clause, text).1 >= 10) as usize;
    }
}

/// How many pairs the text at a node needs: a leaf none, an operator one, and one more where both operands need the same.
pub fn need(clause: &Clause, node: usize) -> usize {
    let Node { op, left, right } = clause.nodes[node];
    match op.operands() {
        0 => 0,
        1 => need(clause, left).max(1),
        _ => match (need(clause, left), need(clause, right)) {
            (a, b) if a == b => a + 1,
            (a, b) => a.max(b),
        },
    }
}

/// Nodes and leaves of the text at a node.
fn size(clause: &Clause, node: usize) -> (usize, usize) {
    let Node { op, left, right } = clause.nodes[node];
    let (a, b) = match op.operands() {
        0 => return (1, 1),
        1 => (size(clause, left), (0, 0)),
        _ => (size(clause, left), size(clause, right)),
    };
    (1 + a.0 + b.0, a.1 + b.1)
}

/// Whether some U or R has a left operand that needs more, and whether some has a right one that does.
fn uneven(clause: &Clause, node: usize) -> [bool; 2] {
    let Node { op, left, right } = clause.nodes[node];
    let mut found = [false; 2];
    for operand in [left, right].into_iter().take(op.operands()) {
        let its = uneven(clause, operand);
        found = [found[0] || its[0], found[1] || its[1]];
    }
    if matches!(op, Op::Until | Op::Release) {
        let (a, b) = (need(clause, left), need(clause, right));
        found = [found[0] || a > b, found[1] || a < b];
    }
    found
}

/// How many operators with one operand the text begins with, and the most that it has one upon the other.
fn chain(clause: &Clause, node: usize) -> (usize, usize) {
    let Node { op, left, right } = clause.nodes[node];
    match op.operands() {
        0 => (0, 0),
        1 => {
            let (here, most) = chain(clause, left);
            (here + 1, most.max(here + 1))
        }
        _ => (0, chain(clause, left).1.max(chain(clause, right).1)),
    }
}

/// A world of so many steps whose highest mark is known; the clauses speak of it, of the one above and of others.
pub fn with_marks(random: &mut Random, h: usize, marks: usize, d: usize) -> World {
    let carts = random.range(1, 32);
    let carts = random.pick(&[1, 2, 32, carts]);
    let places = random.range(1, 8);
    let mut world = World::build(random, [carts, h, d, places], narrow::Wish::Clear);
    let borne = ((1u64 << marks) - 1) as u32;
    let places = &mut world.floor.places;
    places.iter_mut().for_each(|place| *place &= borne);
    if marks > 0 {
        let place = random.below(places.len());
        places[place] |= 1 << (marks - 1);
    }
    let others = [0, 1].map(|_| random.below(marks.max(1)));
    world.marks = [marks.saturating_sub(1), marks.min(31), others[0], others[1]]
        .map(|mark| mark as u32)
        .to_vec();
    world
}

/// A clause with a text that needs so many pairs, with some small ones before it and behind it.
fn rules(random: &mut Random, world: &World, need: usize, lean: Lean) -> Vec<u8> {
    let collection = world.collection();
    let mut clauses = Clauses::new(random, world, &collection);
    let [before, behind] = [0, 1].map(|_| clauses.random.below(2));
    let mut rules = Vec::new();
    for clause in 0..=before + behind {
        clauses.next_outside = clauses.random.chance(10);
        rules.extend(line(&mut clauses, |clauses| {
            if clause == before {
                return with_text(clauses, need, lean);
            }
            let nodes = clauses.random.range(2, 6);
            clauses.clause(nodes)
        }));
    }
    rules
}

/// A clause with a count whose text needs so many pairs: alone, under a G, or beside other counts, in front of them or behind them.
fn with_text(clauses: &mut Clauses, need: usize, lean: Lean) -> Clause {
    let mut clause = Clause::default();
    let least = fewest(need);
    let most = clauses.random.range(least, MOST);
    let most = clauses.random.pick(&[least, most, MOST]);
    let text = text(clauses, &mut clause, need, most, lean);
    let mut root = clauses.counted(&mut clause, text);
    let left = sheet::MOST_NODES - clause.nodes.len();
    if left > 3 && clauses.random.chance(40) {
        let nodes = clauses.random.range(1, left - 2);
        let beside = clauses.count(&mut clause, nodes);
        let op = clauses.random.pick(&[Op::And, Op::Or]);
        root = if clauses.random.chance(50) {
            clause.push(op, root, beside)
        } else {
            clause.push(op, beside, root)
        };
    }
    if clause.nodes.len() < sheet::MOST_NODES && clauses.random.chance(50) {
        root = clause.push(Op::Globally, root, 0);
    }
    clause.root = root;
    clause
}

/// The fewest nodes of a text that needs so many pairs: an operator with one operand over each leaf.
pub fn fewest(need: usize) -> usize {
    match need {
        0 => 1,
        _ => 3 * (1 << (need - 1)) - 1,
    }
}

/// A text that needs so many pairs, of at most so many nodes. Leaning to neither side it is a full tree over marks, where there are nodes enough.
pub fn text(
    clauses: &mut Clauses,
    clause: &mut Clause,
    need: usize,
    most: usize,
    lean: Lean,
) -> usize {
    if need == 0 {
        return clauses.inner(clause, 1);
    }
    let spare = most - fewest(need);
    let chance = if need == 1 { 60 } else { 10 };
    if need == 1 && most == 2 || spare > 0 && lean != Lean::Neither && clauses.random.chance(chance)
    {
        let below = if spare == 0 { 0 } else { need };
        let operand = text(clauses, clause, below, most - 1, lean);
        let op = clauses.random.pick(&UNARY);
        return clause.push(op, operand, 0);
    }
    two_operands(clauses, clause, need, most, lean)
}

/// A text whose operator has two operands: two that need one less, or one that needs as much and one that needs less.
fn two_operands(
    clauses: &mut Clauses,
    clause: &mut Clause,
    need: usize,
    most: usize,
    lean: Lean,
) -> usize {
    let spare = most - fewest(need);
    let even = lean == Lean::Neither || spare < 2 || clauses.random.chance(20);
    let (first, second) = if even {
        (need - 1, need - 1)
    } else {
        let fitting = (0..need).filter(|less| fewest(*less) < spare).count();
        (need, clauses.random.below(fitting))
    };
    let spare = most - 1 - fewest(first) - fewest(second);
    let share = match lean {
        Lean::Neither => spare / 2,
        _ => clauses.random.range(0, spare),
    };
    let right = match lean {
        Lean::Left | Lean::Neither => false,
        Lean::Right => true,
        Lean::Random => clauses.random.chance(50),
    };
    let mut parts = [
        (first, fewest(first) + share),
        (second, fewest(second) + spare - share),
    ];
    if right {
        parts.swap(0, 1);
    }
    let [a, b] = parts.map(|(need, most)| text(clauses, clause, need, most, lean));
    let op = clauses.random.pick(&BINARY);
    clause.push(op, a, b)
}

/// A clause as short as it can be written, within the limits on levels.
pub fn line(clauses: &mut Clauses, make: impl Fn(&mut Clauses) -> Clause) -> Vec<u8> {
    loop {
        let clause = make(clauses);
        let mut printer = Printer::new(clauses.random);
        (printer.spaces, printer.parens) = (0, 0);
        let line = printer.line(&clause);
        if sheet::read(&line).is_ok() {
            return line;
        }
    }
}
