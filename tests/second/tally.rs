//! How often each verdict and each limit was met.

use crate::conflicts::Conflicts;
use crate::damage::Triple;
use crate::floor::Floor;
use crate::group_readings;
use crate::groups;
use crate::logic::Collection;
use crate::plan::Plan;
use crate::readings::{self, Reading};
use crate::rounding;
use crate::runs::Read;
use crate::sheet;
use crate::verdict::{Refusal, Verdict, FLOOR, RULES};

/// The least number of times that every verdict has to be met in a run of 300,000 cases or more, and each way into a conflict or to
/// round a percentage.
const LEAST: usize = 500;

/// The same for each refusal for how a group is written, and for each way to read an or, an until or a group; small plans meet these more
/// often (`joined`, `grouped`).
const LEAST_READINGS: usize = 10;

/// The most carts times steps of a plan for which all readings are tried.
const LARGE: usize = 320;

/// What writing and replacing alone give.
const NOT_GIVEN: [usize; 2] = [18, 19];

const LIMITS: [(&str, usize); 11] = [
    ("places", 256),
    ("lanes", 1024),
    ("carts", 32),
    ("narrow places", 256),
    ("groups", groups::MOST_GROUPS),
    ("steps", 64),
    ("drift", 16),
    ("bytes of sheet", sheet::LONGEST_SHEET),
    ("clauses", sheet::MOST_CLAUSES),
    ("nodes", sheet::MOST_NODES),
    ("level", sheet::HIGHEST_LEVEL),
];

/// Plans that tell checks of narrow places apart: refused with 20, but for the first.
const WAYS: [&str; 6] = [
    "accepted with two carts in narrow places",
    "conflicts at or beyond counter h first",
    "conflicts by swaps alone",
    "numbers by a swap, another conflict too",
    "numbers by the whole drift",
    "a narrow place named twice",
];

/// Refusals for how a group is written.
const WRITTEN: [&str; 6] = [
    "a record behind a group refused with 3",
    "a group's record refused with 4",
    "with 5",
    "with 6",
    "13 straight behind @",
    "13 behind @ and its digit",
];

#[derive(Default)]
pub struct Tally {
    /// For each number, 0 being accepted.
    pub numbers: [usize; 22],
    pub smaller: usize,
    limits: [usize; LIMITS.len()],
    ways: [usize; 6],
    written: [usize; WRITTEN.len()],
    roundings: [usize; rounding::WAYS.len()],
    readings: [usize; readings::WAYS.len()],
    groups: [usize; group_readings::WAYS.len()],
    orders: [usize; group_readings::ORDERS.len()],
    large: usize,
}

impl Tally {
    /// Counts the limits that an accepted triple reaches.
    pub fn note_limits(&mut self, triple: &Triple) {
        let Read {
            floor,
            plan,
            clauses,
        } = Read::of(triple);
        let sizes = [
            floor.places.len(),
            floor.lanes.len(),
            floor.carts.len(),
            floor.narrow.len(),
            floor.groups.len(),
            plan.h,
            plan.d,
            triple.rules.len(),
            clauses.len(),
            clauses.iter().map(|c| c.nodes.len()).max().unwrap(),
            clauses.iter().map(|c| c.level).max().unwrap(),
        ];
        for (i, (_, limit)) in LIMITS.iter().enumerate() {
            self.limits[i] += (sizes[i] == *limit) as usize;
        }
        let in_narrow = |row: &&Vec<u8>| row.iter().any(|place| floor.narrow.contains(place));
        self.ways[0] += (plan.rows.iter().filter(in_narrow).count() > 1) as usize;
    }

    /// Counts what a plan refused with 20 tells apart.
    pub fn note_conflict(&mut self, triple: &Triple) {
        let floor = Floor::read(&triple.floor).expect("a floor");
        let mut plan = Plan::read(&triple.plan, &floor).expect("a plan");
        let first = |plan: &Plan, swaps: bool| {
            Conflicts::new(plan, &floor.narrow, floor.places.len()).lowest(swaps)
        };
        let found = first(&plan, true);
        let vertex = first(&plan, false);
        plan.d = plan.d.wrapping_sub(1);
        let closer = plan.d < 16 && first(&plan, true) != found;
        let mut places = floor.narrow.clone();
        places.sort();
        places.dedup();
        let ways = [
            found.is_some_and(|(_, counter)| counter >= plan.h),
            vertex.is_none(),
            vertex.is_some() && vertex != found,
            closer,
            places.len() < floor.narrow.len(),
        ];
        for (count, way) in self.ways[1..].iter_mut().zip(ways) {
            *count += way as usize;
        }
    }

    /// Counts what a triple tells apart whose clauses were judged.
    pub fn note_clauses(&mut self, triple: &Triple, verdict: Verdict) {
        let Verdict { first, second, .. } = verdict;
        let judged = match verdict.number {
            17 => Err(Refusal(17, first as usize, second as usize)),
            _ => Ok(()),
        };
        let read = Read::of(triple);
        if triple.rules.contains(&b'%') {
            let ways = rounding::ways(&read, judged);
            for (count, way) in self.roundings.iter_mut().zip(ways) {
                *count += way;
            }
        }
        self.note_readings(&read, judged);
    }

    /// Counts refusals for how a group is written, by the record or the bytes before the offset.
    pub fn note_written(&mut self, triple: &Triple, verdict: Verdict) {
        let at = verdict.first as usize;
        match (verdict.about, verdict.number) {
            (FLOOR, 3) => {
                let before = Floor::read(&triple.floor[..at]);
                self.written[0] += before.is_ok_and(|floor| !floor.groups.is_empty()) as usize;
            }
            (FLOOR, number @ 4..=6) if triple.floor[at + 2..at + 4] == [7, 0] => {
                self.written[number as usize - 3] += 1;
            }
            (RULES, 13) => {
                let before = &triple.rules[..at];
                let digit = before.last().is_some_and(u8::is_ascii_digit);
                self.written[4] += before.ends_with(b"@") as usize;
                self.written[5] += (digit && before[..at - 1].ends_with(b"@")) as usize;
            }
            _ => {}
        }
    }

    /// Counts what a triple tells apart that is refused for a group.
    pub fn note_lacking(&mut self, triple: &Triple, verdict: Verdict) {
        let Verdict { first, second, .. } = verdict;
        let refused = Refusal(21, first as usize, second as usize);
        let orders = group_readings::orders(&mut Read::of(triple), refused);
        for (count, order) in self.orders.iter_mut().zip(orders) {
            *count += order as usize;
        }
    }

    /// Counts the readings that would change what is said of the clauses; of large plans that of the old rules alone, for its time.
    fn note_readings(&mut self, read: &Read, judged: Result<(), Refusal>) {
        let looked_at = match judged {
            Ok(()) => read.clauses.len(),
            Err(Refusal(_, clause, _)) => clause + 1,
        };
        let clauses = &read.clauses[..looked_at];
        let collection = Collection::new(&read.floor, &read.plan);
        if read.plan.h * read.plan.rows.len() > LARGE {
            let old = |clause| readings::broken_at(&collection, clause, Reading::Apart);
            let changed = |clause| old(clause) != collection.broken_at(clause);
            self.large += clauses.iter().any(changed) as usize;
            return;
        }
        let ways = readings::ways(&collection, clauses);
        for (count, way) in self.readings.iter_mut().zip(ways) {
            *count += way as usize;
        }
        let ways = group_readings::ways(&collection, clauses);
        for (count, way) in self.groups.iter_mut().zip(ways) {
            *count += way as usize;
        }
    }

    /// The ways into a conflict, of rounding and of reading ors, untils and groups, by name.
    fn named_ways(&self) -> impl Iterator<Item = (String, usize)> + '_ {
        let names = WAYS
            .iter()
            .chain(&WRITTEN)
            .chain(&rounding::WAYS)
            .map(|name| name.to_string());
        let readings = readings::WAYS.iter().map(|(_, name)| name);
        let groups = group_readings::WAYS.iter().map(|(_, name)| name);
        let readings = readings
            .chain(groups)
            .map(|name| format!("verdicts changed by {name}"));
        let orders = group_readings::ORDERS.iter();
        let orders = orders.map(|name| format!("answers for a lacking group changed by {name}"));
        let large = "the same by the first of these on large plans".to_string();
        let counts = self.ways.iter().chain(&self.written);
        let counts = counts.chain(&self.roundings);
        let counts = counts.chain(&self.readings).chain(&self.groups);
        let counts = counts.chain(&self.orders).chain([&self.large]);
        let names = names.chain(readings).chain(orders).chain([large]);
        names.zip(counts.copied())
    }

    fn too_rare(&self) -> bool {
        let mut numbers = self.numbers.iter().enumerate();
        let rare =
            |(number, count): (usize, &usize)| *count < LEAST && !NOT_GIVEN.contains(&number);
        let mut ways = self.ways.iter().chain(&self.roundings);
        numbers.any(rare)
            || ways.any(|count| *count < LEAST)
            || self.large < LEAST
            || self.written.iter().any(|count| *count < LEAST_READINGS)
            || self.orders.iter().any(|count| *count < LEAST)
            || self.groups.iter().any(|count| *count < LEAST_READINGS)
            || self.readings.iter().any(|count| *count < LEAST_READINGS)
    }

    /// Prints the counts; false if a long run met a verdict too rarely.
    pub fn told(&self, cases: u64) -> bool {
        for (number, count) in self.numbers.iter().enumerate() {
            match number {
                0 => println!("  accepted: {count}"),
                _ if NOT_GIVEN.contains(&number) => {}
                _ => println!("refused {number:2}: {count}"),
            }
        }
        println!("smaller drifts of accepted plans: {}", self.smaller);
        let limits = LIMITS.iter().zip(self.limits);
        let limits: Vec<String> = limits
            .map(|((name, limit), count)| format!("{limit} {name} {count}"))
            .collect();
        println!("accepted at a limit: {}", limits.join(", "));
        for (name, count) in self.named_ways() {
            println!("{name}: {count}");
        }
        if cases >= 300_000 && self.too_rare() {
            println!("second: a verdict or one of the ways above was met too rarely");
            return false;
        }
        println!("{cases} cases, 0 differences");
        true
    }
}
