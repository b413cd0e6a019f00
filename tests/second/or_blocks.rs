//! Ors of counts about the places of tables: the carts of joined counts are kept beside the tables in which their texts are judged.
//! Counts whose texts need more or fewer pairs than those beside them, as many counts and as many ors in one another as there may be.

use crate::blocks::{self, fewest, need, Lean, LEANS, MOST_PAIRS};
use crate::clauses::Clauses;
use crate::compare::{both, tell};
use crate::damage::Triple;
use crate::faults::Records;
use crate::formula::{Clause, Node, Op};
use crate::ors;
use crate::random::Random;
use crate::readings::{self, Reading};
use crate::sheet;
use crate::sums::Leaf;
use crate::verdict::Verdict;
use crate::world::World;

/// What is counted; each has to be met LEAST times.
const WAYS: [&str; 12] = [
    "ors whose left side needs more",
    "whose right side does",
    "that need six",
    "counts that need as much on both sides",
    "30 counts or more",
    "43",
    "ten ors in one another to the left",
    "to the right",
    "level 32",
    "128 nodes",
    "untils",
    "let through only since counts are joined",
];

const LEAST: usize = 10;

/// The most counts of a clause: each has a mark, and an or stands between two.
const MOST_COUNTS: usize = 43;

/// How ors stand in one another.
#[derive(Clone, Copy, PartialEq)]
enum Shape {
    ToLeft,
    ToRight,
    Halves,
    Random,
}

const SHAPES: [Shape; 4] = [Shape::ToLeft, Shape::ToRight, Shape::Halves, Shape::Random];

#[derive(Default)]
pub struct OrBlocks {
    checks: usize,
    accepted: usize,
    ways: [usize; WAYS.len()],
}

/// Looks at all of them; the first check that comes out otherwise is told.
pub fn run() -> Result<OrBlocks, String> {
    let mut blocks = OrBlocks::default();
    for h in 1..=64 {
        for marks in 0..=32 {
            for more in 0..if marks >= 31 && h >= 63 { 99 } else { 3 } {
                blocks.look(h, marks, ((h * 33 + marks) * 99 + more) as u64)?;
            }
        }
    }
    match blocks.ways.iter().position(|count| *count < LEAST) {
        Some(way) => Err(format!("ors: {} less than {LEAST} times", WAYS[way])),
        None => Ok(blocks),
    }
}

impl OrBlocks {
    pub fn print(&self) {
        let ways = WAYS.iter().zip(self.ways);
        let ways: Vec<String> = ways.map(|(way, count)| format!("{way} {count}")).collect();
        println!(
            "{} checks of ors of counts about the places of tables, {} accepted; {}",
            self.checks,
            self.accepted,
            ways.join(", ")
        );
    }

    fn look(&mut self, h: usize, marks: usize, case: u64) -> Result<(), String> {
        let mut random = Random::new(4, case);
        let drift = random.range(1, 16);
        let d = random.pick(&[1, 2, 16, drift]);
        let world = blocks::with_marks(&mut random, h, marks, d);
        let rules = rules(&mut random, &world);
        let (floor, plan) = Records::of(&world).files();
        let triple = Triple { floor, plan, rules };
        let verdict = both(&triple).inspect_err(|text| tell(&triple, 4, case, text))?;
        self.checks += 1;
        self.accepted += (verdict == Verdict::ACCEPTED) as usize;
        self.note(&world, &sheet::read(&triple.rules).expect("a sheet")[0]);
        Ok(())
    }

    /// Counts what a clause meets.
    fn note(&mut self, world: &World, clause: &Clause) {
        let mut shape = Met::default();
        shape.walk(clause, clause.root);
        let collection = world.collection();
        let joined = collection.broken_at(clause).is_none()
            && readings::broken_at(&collection, clause, Reading::Apart).is_some();
        let ways = [
            shape.left,
            shape.right,
            shape.most == MOST_PAIRS,
            shape.even,
            shape.counts >= 30,
            shape.counts == MOST_COUNTS,
            shape.to_left >= 10,
            shape.to_right >= 10,
            clause.level == sheet::HIGHEST_LEVEL,
            clause.nodes.len() == sheet::MOST_NODES,
            shape.until,
            joined,
        ];
        for (count, way) in self.ways.iter_mut().zip(ways) {
            *count += way as usize;
        }
    }
}

/// What is met in a clause: sides of ors, the most pairs, counts, the longest chains of ors.
#[derive(Default)]
struct Met {
    left: bool,
    right: bool,
    even: bool,
    until: bool,
    most: usize,
    counts: usize,
    to_left: usize,
    to_right: usize,
}

impl Met {
    /// The most pairs that a text below the node needs, and how many `|` or `&` are in one another to either side.
    fn walk(&mut self, clause: &Clause, node: usize) -> (usize, [usize; 2]) {
        let Node { op, left, right } = clause.nodes[node];
        if let Op::Count(_) = op {
            let most = need(clause, left);
            self.counts += 1;
            self.most = self.most.max(most);
            return (most, [0, 0]);
        }
        if op.operands() == 0 {
            return (0, [0, 0]);
        }
        let (a, chains) = self.walk(clause, left);
        if op.operands() == 1 {
            return (a, chains);
        }
        let (b, other) = self.walk(clause, right);
        self.left |= a > b;
        self.right |= a < b;
        self.even |= a == b && a > 0;
        self.until |= matches!(op, Op::Until | Op::Release);
        let chains = [chains[0] + 1, other[1] + 1];
        self.to_left = self.to_left.max(chains[0]);
        self.to_right = self.to_right.max(chains[1]);
        (a.max(b), chains)
    }
}

fn rules(random: &mut Random, world: &World) -> Vec<u8> {
    let collection = world.collection();
    let mut clauses = Clauses::new(random, world, &collection);
    blocks::line(&mut clauses, |clauses| {
        let needs = needs(clauses);
        let shape = clauses.random.pick(&SHAPES);
        let lean = clauses.random.pick(&LEANS);
        let until = clauses.random.chance(20);
        let negations = clauses.random.pick(&[0, 0, 15, 40]);
        let mut tree = Tree {
            clauses,
            shape,
            lean,
            negations,
            spare: sheet::MOST_NODES - nodes(&needs),
            leaves: Vec::new(),
        };
        tree.clause(&needs, until)
    })
}

/// The pairs that the counts need: two in any way that there is room for, some few, or many.
fn needs(clauses: &mut Clauses) -> Vec<usize> {
    let random = &mut clauses.random;
    let mut needs = match random.below(4) {
        0 => vec![0; random.range(2, MOST_COUNTS)],
        1 => vec![0; MOST_COUNTS],
        _ => vec![0; random.range(2, 4)],
    };
    // More for one after another, as long as there is room.
    for _ in 0..random.pick(&[0, 4, 12]) {
        let at = random.below(needs.len());
        let before = needs[at];
        needs[at] = random.range(before, MOST_PAIRS);
        if nodes(&needs) > sheet::MOST_NODES {
            needs[at] = before;
        }
    }
    needs
}

/// The fewest nodes of a clause with texts that need so much.
fn nodes(needs: &[usize]) -> usize {
    needs.iter().map(|need| fewest(*need) + 2).sum::<usize>() - 1
}

/// An or of counts while it is built.
struct Tree<'a, 'b> {
    clauses: &'a mut Clauses<'b>,
    shape: Shape,
    lean: Lean,
    /// How often a part is written with a negation, in percent.
    negations: usize,
    /// Nodes that are left over.
    spare: usize,
    leaves: Vec<Leaf>,
}

impl Tree<'_, '_> {
    fn clause(&mut self, needs: &[usize], until: bool) -> Clause {
        let mut clause = Clause::default();
        let mut root = if until {
            let share = self.share(needs.len());
            let left = self.or(&mut clause, &needs[..share], false);
            let right = self.or(&mut clause, &needs[share..], false);
            clause.push(Op::Until, left, right)
        } else {
            self.or(&mut clause, needs, false)
        };
        let leaves = std::mem::take(&mut self.leaves);
        self.clauses.over_groups(&mut clause, &leaves);
        let step = self.clauses.telling_step(&clause, &leaves);
        self.clauses.join(&mut clause, &leaves, step);
        if self.spare > 0 && self.clauses.random.chance(30) {
            let op = self.clauses.random.pick(&[Op::Globally, Op::Finally]);
            root = clause.push(op, root, 0);
        }
        clause.root = root;
        clause
    }

    /// The or, once it is negated or not, of counts whose texts need so much.
    fn or(&mut self, clause: &mut Clause, needs: &[usize], negated: bool) -> usize {
        if self.spare > 1 && self.clauses.random.chance(self.negations) {
            self.spare -= 1;
            let part = self.or(clause, needs, !negated);
            return clause.push(Op::Not, part, 0);
        }
        if let [need] = needs {
            let text = match self.opposite(clause, *need, negated) {
                Some(text) => text,
                None => self.text(clause, *need),
            };
            let count = clause.push(ors::uncounted(), text, 0);
            self.leaves.push((count, negated));
            return count;
        }
        let share = self.share(needs.len());
        let left = self.or(clause, &needs[..share], negated);
        let right = self.or(clause, &needs[share..], negated);
        clause.push(if negated { Op::And } else { Op::Or }, left, right)
    }

    fn text(&mut self, clause: &mut Clause, need: usize) -> usize {
        let more = self.clauses.random.below(self.spare / 4 + 1);
        let before = clause.nodes.len();
        let most = fewest(need) + more;
        let text = blocks::text(self.clauses, clause, need, most, self.lean);
        self.spare -= (clause.nodes.len() - before).saturating_sub(fewest(need));
        text
    }

    /// Now and then the text of an earlier count with the other sign, if there is room: one of the two is true of every cart.
    fn opposite(&mut self, clause: &mut Clause, need: usize, negated: bool) -> Option<usize> {
        let other = |leaf: &&Leaf| leaf.1 != negated;
        let (count, _) = *self.leaves.iter().rev().find(other)?;
        let text = clause.nodes[count].left;
        let more = ors::size(clause, text).saturating_sub(fewest(need));
        if more > self.spare || !self.clauses.random.chance(60) {
            return None;
        }
        self.spare -= more;
        Some(ors::copy(clause, text))
    }

    /// How many of so many counts stand to the left.
    fn share(&mut self, counts: usize) -> usize {
        match self.shape {
            Shape::ToLeft => counts - 1,
            Shape::ToRight => 1,
            Shape::Halves => counts / 2,
            Shape::Random => self.clauses.random.range(1, counts - 1),
        }
    }
}
