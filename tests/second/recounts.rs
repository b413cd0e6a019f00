//! Sheets that count the same marks over and over: with all kinds of thresholds, negated, in ors that are joined, in several clauses. Both
//! checkers judge the sheet, and each clause is judged as it is by itself. Ways to mix up the numbers of carts that are kept from count to count
//! are tried, so that the verdicts can be counted that tell these apart.

use std::collections::{BTreeMap, BTreeSet};

use crate::blocks;
use crate::clauses::Clauses;
use crate::compare::{both, tell};
use crate::damage::Triple;
use crate::faults::Records;
use crate::floor::{Floor, Lane};
use crate::formula::{Clause, Op, Threshold};
use crate::library;
use crate::logic::{Collection, Count, Row};
use crate::plan::Plan;
use crate::random::Random;
use crate::running::{self, Met};
use crate::sheet;
use crate::verdict::{Refusal, Verdict, RULES};
use crate::world::World;

const CASES: u64 = 17 * 350;

/// A sheet is refused less often than not, and only late: so many clauses are tried for it.
const TRIES: usize = 48;

/// The most carts times steps of a plan for which wrong ways are tried.
const LARGE: usize = 320;

/// Each way to mix up kept numbers has to change so many verdicts, and each to get the running count wrong, which `windows` and `cuts` are for.
const LEAST_SLIPS: usize = 100;
const LEAST_WAYS: usize = 10;

#[derive(Clone, Copy)]
enum Slip {
    OtherSign,
    OtherMark,
    OtherGroup,
    FirstRow,
    NotAllCarts,
}

const SLIPS: [(Slip, &str); 5] = [
    (Slip::OtherSign, "the numbers of the other sign"),
    (Slip::OtherMark, "those of another mark"),
    (Slip::OtherGroup, "those of other carts"),
    (Slip::FirstRow, "the row of the first threshold"),
    (
        Slip::NotAllCarts,
        "kept numbers without the case of all carts",
    ),
];

#[derive(Default)]
pub struct Recounts {
    sheets: usize,
    accepted: usize,
    clauses: usize,
    counts: usize,
    again: usize,
    slips: [usize; SLIPS.len()],
    changed: Met,
}

/// Looks at all of them; the first difference is told.
pub fn run() -> Result<Recounts, String> {
    let mut recounts = Recounts::default();
    for case in 0..CASES {
        recounts.look(case)?;
    }
    let slips = SLIPS.iter().zip(recounts.slips);
    if let Some(((_, name), count)) = slips.into_iter().find(|(_, count)| *count < LEAST_SLIPS) {
        return Err(format!("{name} only {count} times"));
    }
    running::told(&recounts.changed, LEAST_WAYS).map(|_| recounts)
}

impl Recounts {
    pub fn print(&self) {
        let slips = SLIPS.iter().zip(self.slips);
        let slips: Vec<String> = slips
            .map(|((_, name), count)| format!("{name} {count}"))
            .collect();
        println!(
            "{} sheets that count marks again, {} accepted; {} clauses judged as by themselves, {} counts of one mark, {} of one counted \
             before; verdicts changed by {}; by {}",
            self.sheets,
            self.accepted,
            self.clauses,
            self.counts,
            self.again,
            slips.join(", "),
            running::told(&self.changed, 0).expect("no least number")
        );
    }

    fn look(&mut self, case: u64) -> Result<(), String> {
        let mut random = Random::new(6, case);
        let world = world(&mut random, case as usize % 17);
        let lines = lines(&mut random, &world);
        let (floor, plan) = Records::of(&world).files();
        let rules = lines.concat();
        let triple = Triple { floor, plan, rules };
        self.compare(&mut random, &triple, lines)
            .inspect_err(|text| tell(&triple, 6, case, text))?;
        self.note(&world, &triple);
        Ok(())
    }

    /// The sheet by both checkers; each clause by itself, and all of them in another order, by the library.
    fn compare(
        &mut self,
        random: &mut Random,
        triple: &Triple,
        lines: Vec<Vec<u8>>,
    ) -> Result<(), String> {
        let Triple { floor, plan, .. } = triple;
        let check = |rules: &[u8]| library::check(floor, plan, rules).0;
        let verdict = both(triple)?;
        let alone = |line: Vec<u8>| (line.clone(), check(&line));
        let mut judged: Vec<(Vec<u8>, Verdict)> = lines.into_iter().map(alone).collect();
        for order in ["as written", "in another order"] {
            let rules: Vec<u8> = judged.iter().flat_map(|(line, _)| line.clone()).collect();
            let (told, wanted) = (check(&rules), first_refused(&judged));
            if told != wanted {
                return Err(format!("{told} {order}, but by themselves {wanted}"));
            }
            random.shuffle(&mut judged);
        }
        self.sheets += 1;
        self.accepted += (verdict == Verdict::ACCEPTED) as usize;
        self.clauses += judged.len();
        Ok(())
    }

    /// Counts the marks that are counted, and the wrong ways that would change the verdict.
    fn note(&mut self, world: &World, triple: &Triple) {
        let clauses = sheet::read(&triple.rules).expect("a sheet");
        let collection = world.collection();
        let right = collection.check(&clauses);
        let mut seen = BTreeSet::new();
        for clause in &clauses {
            collection.broken_by(clause, &mut |count| {
                if let Some((mark, negated)) = count.lone {
                    self.counts += 1;
                    self.again += !seen.insert((mark, negated, count.carts.clone())) as usize;
                }
                collection.count(count)
            });
        }
        if world.plan.h * world.plan.rows.len() > LARGE {
            return;
        }
        for (count, (slip, _)) in self.slips.iter_mut().zip(SLIPS) {
            *count += (slipped(&collection, &clauses, slip) != right) as usize;
        }
        for (count, (way, _)) in self.changed.iter_mut().zip(running::WAYS) {
            *count += (world.collection().misread(way).check(&clauses) != right) as usize;
        }
    }
}

/// What is said of a sheet whose clauses are judged so.
fn first_refused(judged: &[(Vec<u8>, Verdict)]) -> Verdict {
    let refused = |(_, alone): &(Vec<u8>, Verdict)| *alone != Verdict::ACCEPTED;
    match judged.iter().position(refused) {
        None => Verdict::ACCEPTED,
        Some(i) => Verdict::refused(RULES, Refusal(17, i, judged[i].1.second as usize)),
    }
}

/// What is said of clauses if kept numbers are mixed up.
fn slipped(collection: &Collection, clauses: &[Clause], slip: Slip) -> Result<(), Refusal> {
    let mut kept = Kept {
        collection,
        slip,
        sums: BTreeMap::new(),
        rows: BTreeMap::new(),
    };
    for (i, clause) in clauses.iter().enumerate() {
        if let Some(step) = collection.broken_by(clause, &mut |count| kept.row(count)) {
            return Err(Refusal(17, i, step));
        }
    }
    Ok(())
}

/// The numbers of carts that are kept, by mark, sign and the carts that are counted, and the first rows that were made of them.
struct Kept<'a> {
    collection: &'a Collection,
    slip: Slip,
    sums: BTreeMap<Key, [usize; 64]>,
    rows: BTreeMap<Key, Row>,
}

type Key = (u32, bool, Vec<usize>);

impl Kept<'_> {
    fn row(&mut self, count: &Count) -> Row {
        let this = self.collection;
        let Some((mark, negated)) = count.lone else {
            return this.count(count);
        };
        let key = match self.slip {
            Slip::OtherSign => (mark, false, count.carts.clone()),
            Slip::OtherMark => (0, negated, count.carts.clone()),
            Slip::OtherGroup => (mark, negated, Vec::new()),
            _ => (mark, negated, count.carts.clone()),
        };
        let before = self.sums.contains_key(&key);
        let sums = self
            .sums
            .entry(key.clone())
            .or_insert_with(|| this.sums(count));
        let row = match self.slip {
            Slip::NotAllCarts if before => this.row(|t| sums[t] >= count.m),
            _ => this.enough(count, sums),
        };
        match self.slip {
            Slip::FirstRow => *self.rows.entry(key).or_insert(row),
            _ => row,
        }
    }
}

/// Steps and marks of any number; of the marks one is borne as the highest and one is above all that are borne.
fn world(random: &mut Random, d: usize) -> World {
    let most = random.pick(&[4, 12, 64]);
    let h = random.range(1, most);
    let few = random.range(0, 4);
    let any = random.range(0, 32);
    let marks = random.pick(&[few, any]);
    let mut world = blocks::with_marks(random, h, marks, d);
    if random.chance(70) {
        go_to_and_fro(random, &mut world);
    }
    world
}

/// Lets each cart go to and fro between two places, and stay about as long as a window is, with a lane for every move.
fn go_to_and_fro(random: &mut Random, world: &mut World) {
    let Plan { h, d, rows, .. } = &mut world.plan;
    let Floor {
        places,
        lanes,
        carts,
        narrow,
        ..
    } = &mut world.floor;
    narrow.clear();
    lanes.clear();
    for (from, to) in (0..places.len()).flat_map(|a| (0..places.len()).map(move |b| (a, b))) {
        let classes = 255;
        lanes.push(Lane { from, to, classes });
    }
    for (row, cart) in rows.iter_mut().zip(carts) {
        let [mut here, mut there] = [0, 1].map(|_| random.below(places.len()) as u8);
        row.clear();
        while row.len() < *h {
            let stay = random.pick(&[1, 2, *d, *d + 1, *d + 2]);
            row.extend(vec![here; stay]);
            (here, there) = (there, here);
        }
        row.truncate(*h);
        cart.start = row[0];
    }
}

/// Clauses that are kept, in any order, and mostly one among the last of them that is not: if there is one, such that a wrong way to find
/// windows would tell otherwise.
fn lines(random: &mut Random, world: &World) -> Vec<Vec<u8>> {
    let collection = world.collection();
    let mut clauses = Clauses::new(random, world, &collection);
    let tried = (0..TRIES).map(|_| blocks::line(&mut clauses, about_marks));
    let broken_at = |collection: &Collection, line: &[u8]| {
        collection.broken_at(&sheet::read(line).expect("a clause")[0])
    };
    let holds = |line: &Vec<u8>| broken_at(&collection, line).is_none();
    let (mut lines, mut broken): (Vec<_>, Vec<_>) = tried.partition(holds);
    lines.truncate(sheet::MOST_CLAUSES - 1);
    if !broken.is_empty() && random.chance(80) {
        let (way, _) = random.pick(&running::WAYS);
        let wrong = world.collection().misread(way);
        let told = |line: &Vec<u8>| broken_at(&wrong, line) != broken_at(&collection, line);
        let telling = broken.iter().position(told).unwrap_or(0);
        let at = random.range(lines.len() / 2, lines.len());
        lines.insert(at, broken.swap_remove(telling));
    }
    if lines.is_empty() {
        lines.push(b"true\n".to_vec());
    }
    lines
}

/// One to four counts, nearly all of a mark or its negation, below operators.
fn about_marks(clauses: &mut Clauses) -> Clause {
    let mut clause = Clause::default();
    let counts = clauses.random.pick(&[1, 1, 1, 2, 2, 3, 4]);
    let mut root = operators(clauses, &mut clause, counts);
    if clauses.random.chance(40) {
        let op = clauses
            .random
            .pick(&[Op::Globally, Op::Globally, Op::Finally]);
        root = clause.push(op, root, 0);
    }
    clause.root = root;
    clause
}

fn operators(clauses: &mut Clauses, clause: &mut Clause, counts: usize) -> usize {
    if counts == 1 {
        return mark_counted(clauses, clause);
    }
    let share = clauses.random.range(1, counts - 1);
    let left = operators(clauses, clause, share);
    let right = operators(clauses, clause, counts - share);
    let op = [Op::Or, Op::And, Op::Until, Op::Release][clauses.random.weighted(&[5, 2, 2, 1])];
    let both = clause.push(op, left, right);
    match clauses.random.below(6) {
        0 => clause.push(Op::Not, both, 0),
        1 => clause.push(Op::Finally, both, 0),
        _ => both,
    }
}

/// A count of a mark, at times of its negation or of another text, which is negated or not.
fn mark_counted(clauses: &mut Clauses, clause: &mut Clause) -> usize {
    let nodes = [1, 2, 3][clauses.random.weighted(&[8, 1, 1])];
    let mut text = clauses.inner(clause, nodes);
    if nodes == 1 && clauses.random.chance(12) {
        text = clause.push(Op::Not, text, 0);
    }
    let count = clauses.counted(clause, text);
    if let (true, Op::Count(told)) = (clauses.random.chance(30), clause.nodes[count].op) {
        let threshold = at_a_limit(clauses, told);
        clause.nodes[count].op = Op::Count(threshold);
    }
    match clauses.random.chance(35) {
        true => clause.push(Op::Not, count, 0),
        false => count,
    }
}

/// No cart, one, all or one more; or the share that none, half or all of them are.
fn at_a_limit(clauses: &mut Clauses, told: Threshold) -> Threshold {
    let carts = clauses.collection.carts();
    let limits = [0, 1, 1, carts, carts + 1].map(Threshold::plain);
    let shares = [0, 50, 100].map(Threshold::share_of);
    match clauses.random.below(8) {
        0 => told,
        1 | 2 => clauses.random.pick(&shares),
        _ => clauses.random.pick(&limits),
    }
}
