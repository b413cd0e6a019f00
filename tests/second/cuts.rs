//! Windows about the cut of the running count at 17: 32 carts, each with its own row, laps and run-ins of up to 64 steps, and 15 to 18 trues in a
//! row before the lap's end, behind it and across it. At each step the number of carts whose row is true throughout, or false throughout, is told
//! by two verdicts: so many are enough, one more is not.
//!
//! Each step has a number in six marks, which all carts bear: to count it by a threshold of 1 is true there and nowhere else.

use crate::compare::expect;
use crate::damage::Triple;
use crate::plan::step_of;
use crate::random::Random;
use crate::running::{self, Met};
use crate::sheet;
use crate::verdict::{Refusal, Verdict, RULES};
use crate::windows::is_window;
use crate::world::{encode, Written};

const CARTS: usize = 32;
const MOST_STEPS: usize = 64;

const LAPS: [usize; 8] = [1, 2, 15, 16, 17, 18, 33, 64];
const RUN_INS: [usize; 10] = [0, 1, 2, 14, 15, 16, 17, 18, 31, 63];

/// Trues in a row.
const TRUES: [usize; 4] = [15, 16, 17, 18];

/// Each way to get the running count wrong has to change so many numbers of carts, and so many have to be told by joined counts.
const LEAST: usize = 1000;

/// The truth of a text at each step.
type Text = Vec<bool>;

#[derive(Default)]
pub struct Cuts {
    plans: usize,
    checks: usize,
    numbers: usize,
    /// Numbers of carts that counts give only since they are joined.
    joined: usize,
    changed: Met,
}

/// Looks at all of them; the first check that comes out otherwise is told.
pub fn run() -> Result<Cuts, String> {
    let mut cuts = Cuts::default();
    let mut random = Random::new(5, 0);
    for lap in LAPS {
        for l in RUN_INS.into_iter().filter(|l| l + lap <= MOST_STEPS) {
            let rows = rows(&mut random, l + lap, l);
            for carts in rows.chunks_exact(CARTS) {
                for d in 0..=16 {
                    let plan = Plan { carts, l, d };
                    cuts.look(&plan)
                        .map_err(|text| format!("cuts, lap {lap} from {l}, drift {d}: {text}"))?;
                }
            }
        }
    }
    if cuts.joined < LEAST {
        return Err(format!("joined counts only {} times", cuts.joined));
    }
    running::told(&cuts.changed, LEAST).map(|_| cuts)
}

/// Rows of h steps with trues in a row about step l and the last one, their opposites, and rows that are true or false but for a step or for the
/// lap; then some at random, to make it a multiple of 32.
fn rows(random: &mut Random, h: usize, l: usize) -> Vec<Text> {
    let mut rows: Vec<Text> = Vec::new();
    for trues in TRUES {
        let before = [trues + 1, trues, trues - 1, trues / 2, 1, 0];
        let firsts = before
            .iter()
            .flat_map(|b| [h.checked_sub(*b), l.checked_sub(*b)]);
        for first in firsts.flatten() {
            let mut row = vec![false; h];
            (first..first + trues).for_each(|v| row[step_of(v, h, l)] = true);
            rows.push(row);
        }
    }
    for odd in [0, l.saturating_sub(1), l, (l + h) / 2, h - 1] {
        rows.push((0..h).map(|step| step == odd).collect());
    }
    rows.push(vec![false; h]);
    rows.push((0..h).map(|step| step < l).collect());
    rows.push((0..h).map(|step| step % 2 == 0).collect());
    rows.sort();
    rows.dedup();
    let opposites: Vec<Text> = rows.iter().map(|row| not(row)).collect();
    rows.extend(opposites);
    while rows.len() % CARTS > 0 {
        let often = random.pick(&[50, 90, 97]);
        rows.push((0..h).map(|_| random.chance(often)).collect());
    }
    random.shuffle(&mut rows);
    rows
}

fn not(text: &[bool]) -> Text {
    text.iter().map(|holds| !holds).collect()
}

/// Rows with their lap's first step and the drift.
struct Plan<'a> {
    carts: &'a [Text],
    l: usize,
    d: usize,
}

/// A count, and whether it is true at a step.
type Asked = (String, bool);

impl Plan<'_> {
    fn steps(&self) -> usize {
        self.carts[0].len()
    }

    /// The text of each cart: of its row m0, that only at steps of even or odd number, or the opposite of m0.
    fn texts(&self, text: impl Fn(usize, bool) -> bool) -> Vec<Text> {
        let of_cart = |row: &Text| row.iter().enumerate().map(|(s, m0)| text(s, *m0)).collect();
        self.carts.iter().map(of_cart).collect()
    }

    /// How many carts satisfy a text throughout the window.
    fn number(&self, texts: &[Text], s: usize) -> usize {
        let held = |text: &&Text| is_window(text, self.l, s, self.d);
        texts.iter().filter(held).count()
    }

    /// The drift rule for a count.
    fn is_enough(&self, texts: &[Text], s: usize, m: usize) -> bool {
        self.number(texts, s) >= m || m == 1 && texts.iter().all(|text| text[s])
    }
}

impl Cuts {
    pub fn print(&self) {
        println!(
            "{} numbers of carts within windows about the cut at 17 in {} checks of {} plans, {} only by joined counts; wrong by {}",
            self.numbers,
            self.checks,
            self.plans,
            self.joined,
            running::told(&self.changed, 0).expect("no least number")
        );
    }

    fn look(&mut self, plan: &Plan) -> Result<(), String> {
        let kinds = Kinds {
            on: plan.texts(|_, m0| m0),
            off: plan.texts(|_, m0| !m0),
            odd: plan.texts(|s, m0| m0 && s % 2 == 1),
            even: plan.texts(|s, m0| m0 && s % 2 == 0),
        };
        self.note(plan, &kinds.on);
        self.note(plan, &kinds.off);
        let mut triple = Triple {
            floor: floor(plan),
            plan: file(plan),
            rules: Vec::new(),
        };
        let mut kept = Vec::new();
        for s in 0..plan.steps() {
            let (enough, too_many): (Vec<Asked>, Vec<Asked>) = self
                .asked(plan, &kinds, s)
                .into_iter()
                .partition(|asked| asked.1);
            kept.push(clause(s, &enough, "&"));
            triple.rules = clause(s, &too_many, "|").into();
            let refused = Verdict::refused(RULES, Refusal(17, 0, 0));
            self.expect(&triple, refused)?;
        }
        for sheet in kept.chunks(sheet::MOST_CLAUSES) {
            triple.rules = sheet.concat().into();
            self.expect(&triple, Verdict::ACCEPTED)?;
        }
        self.plans += 1;
        Ok(())
    }

    /// Counts for the number of carts at a step and for one more: of m0, of its opposite, and joined ones.
    fn asked(&mut self, plan: &Plan, kinds: &Kinds, s: usize) -> Vec<Asked> {
        let [on, off] = [&kinds.on, &kinds.off].map(|texts| plan.number(texts, s));
        let mut asked = Vec::new();
        for more in 0..2 {
            let m = on + more;
            asked.push((format!("[m0,{m}]"), plan.is_enough(&kinds.on, s, m)));
            let m = off + more;
            let count = format!("![m0,{}]", CARTS + 1 - m);
            asked.push((count, plan.is_enough(&kinds.off, s, m)));
            // More carts than a - 1 and b - 1 together.
            let (a, b) = ((on + more) / 2 + 1, (on + more).div_ceil(2));
            if b > 0 {
                let alone = plan.is_enough(&kinds.odd, s, a) || plan.is_enough(&kinds.even, s, b);
                let joined = on > a + b - 2;
                let count = format!("([m0 & m1,{a}] | [m0 & !m1,{b}])");
                asked.push((count, alone || joined));
                self.joined += (joined && !alone) as usize;
            }
        }
        asked
    }

    fn expect(&mut self, triple: &Triple, wanted: Verdict) -> Result<(), String> {
        self.checks += 1;
        expect(triple, wanted)
    }

    /// Counts the numbers of carts, and those that are other ones by each way to get the running count wrong.
    fn note(&mut self, plan: &Plan, texts: &[Text]) {
        let numbers = |way| {
            let mut numbers = [0; MOST_STEPS];
            for text in texts {
                let held = running::windows(text, plan.l, plan.d, way);
                let steps = numbers.iter_mut().zip(held);
                steps.for_each(|(number, held)| *number += held as usize);
            }
            numbers
        };
        let mut right = [0; MOST_STEPS];
        (0..plan.steps()).for_each(|s| right[s] = plan.number(texts, s));
        assert_eq!(numbers(None), right, "the running count itself");
        self.numbers += plan.steps();
        for (count, (way, _)) in self.changed.iter_mut().zip(running::WAYS) {
            let steps = numbers(Some(way)).into_iter().zip(right);
            *count += steps.filter(|(wrong, right)| wrong != right).count();
        }
    }
}

/// The texts of all carts: m0, its opposite, and m0 at steps of odd and even number.
struct Kinds {
    on: Vec<Text>,
    off: Vec<Text>,
    odd: Vec<Text>,
    even: Vec<Text>,
}

/// Whether all counts are true at a step, or any is: they are not joined.
fn clause(s: usize, asked: &[Asked], op: &str) -> String {
    let bit = |bit: usize| format!("{}m{}", ["!", ""][s >> bit & 1], bit + 1);
    let bits: Vec<String> = (0..6).map(bit).collect();
    let first = if op == "&" { "true" } else { "!true" };
    let counts: String = asked
        .iter()
        .map(|(count, _)| format!(" {op} {count}"))
        .collect();
    format!("F ([{},1] & ({first}{counts}))\n", bits.join(" & "))
}

/// Two places for each step, with m0 and without it.
fn place(step: usize, m0: bool) -> u8 {
    (2 * step + m0 as usize) as u8
}

fn floor(plan: &Plan) -> Vec<u8> {
    let h = plan.steps();
    let marks = |place: usize| (1, (place as u32).to_le_bytes().to_vec());
    let mut records: Vec<Written> = (0..2 * h).map(marks).collect();
    for from in 0..h {
        let to = step_of(from + 1, h, plan.l);
        for (a, b) in [(false, false), (false, true), (true, false), (true, true)] {
            records.push((2, vec![place(from, a), place(to, b), 1]));
        }
    }
    records.extend(plan.carts.iter().map(|row| (3, vec![0, place(0, row[0])])));
    encode(&records)
}

fn file(plan: &Plan) -> Vec<u8> {
    let head = vec![plan.steps() as u8, 0, plan.l as u8, 0, plan.d as u8, 0];
    let places = |row: &Text| {
        row.iter()
            .enumerate()
            .map(|(s, m0)| place(s, *m0))
            .collect()
    };
    let mut records: Vec<Written> = vec![(4, head)];
    records.extend(plan.carts.iter().map(|row| (5, places(row))));
    encode(&records)
}
