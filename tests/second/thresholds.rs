//! Every percentage of 1 to 32 carts, and of a group of 0 to 31 beside which there is one cart more: the number of carts that a count asks for,
//! seen by checks with more and more carts on a mark.

use crate::compare::both;
use crate::damage::Triple;
use crate::verdict::{Refusal, Verdict, RULES};
use crate::world::{encode, Written};

/// The places of a cart at its two steps; place 1 bears m1, place 0 no mark.
type Row = [u8; 2];

/// "25% of 5 is 1, 30% of 5 is 2, 50% of 5 is 3."
const OF_FIVE: [(usize, usize); 3] = [(25, 1), (30, 2), (50, 3)];

/// So many carts, which are all, or a group of the first so many.
#[derive(Clone, Copy, Debug)]
enum Over {
    Fleet(usize),
    Group(usize),
}

impl Over {
    fn carts(self) -> usize {
        match self {
            Over::Fleet(carts) | Over::Group(carts) => carts,
        }
    }

    /// The case of all carts is not for a group that is a part of them.
    fn is_fleet(self) -> bool {
        matches!(self, Over::Fleet(_))
    }

    fn clause(self, not: &str, percent: usize) -> String {
        let group = if self.is_fleet() { "" } else { "@0" };
        format!("{not}[m1,{percent}%{group}]\n")
    }
}

#[derive(Default)]
pub struct Thresholds {
    checks: usize,
    percentages: usize,
    halves: usize,
    /// Below the number that is rounded up: all of these, those that ask for no cart, and those for one.
    lower: usize,
    none: usize,
    one: usize,
}

/// Looks at all of them; the first check that comes out otherwise is told.
pub fn run() -> Result<Thresholds, String> {
    let as_told = |(percent, m): &(usize, usize)| nearest(*percent, 5) == *m;
    assert!(OF_FIVE.iter().all(as_told), "document 02's numbers");
    let mut thresholds = Thresholds::default();
    for over in (1..=32).map(Over::Fleet).chain((0..32).map(Over::Group)) {
        for percent in 0..=100 {
            thresholds
                .look(percent, over)
                .map_err(|text| format!("{percent} percent of {over:?}: {text}"))?;
        }
    }
    Ok(thresholds)
}

/// The number of carts nearest to a percentage of them, by distance; of two that are as near the higher one.
fn nearest(percent: usize, carts: usize) -> usize {
    let apart = |m: &usize| (100 * m).abs_diff(percent * carts);
    (0..=carts).rev().min_by_key(apart).expect("a number")
}

impl Thresholds {
    pub fn print(&self) {
        println!(
            "{} percentages of 1 to 32 carts and of a group in {} checks, each the nearest number; {} at half a cart; {} below what is rounded up, none \
             above; of these {} ask for no cart, {} for one",
            self.percentages, self.checks, self.halves, self.lower, self.none, self.one
        );
    }

    fn look(&mut self, percent: usize, over: Over) -> Result<(), String> {
        let carts = over.carts();
        let m = nearest(percent, carts);
        self.in_step(percent, over, m)?;
        self.with_drift(percent, over, m)?;
        let up = (percent * carts).div_ceil(100);
        if m > up {
            return Err(format!("{m} is above {up}, rounded up"));
        }
        self.percentages += 1;
        self.halves += (percent * carts % 100 == 50) as usize;
        self.lower += (m < up) as usize;
        self.none += (m < up && m == 0) as usize;
        self.one += (m < up && m == 1) as usize;
        Ok(())
    }

    /// Parked carts, of which more and more stand on the mark: from m of them on the count is true, up to there its negation.
    fn in_step(&mut self, percent: usize, over: Over, m: usize) -> Result<(), String> {
        let [count, negated] = ["", "!"].map(|not| over.clause(not, percent));
        for marked in 0..=over.carts() {
            let mut rows = vec![[0, 0]; over.carts()];
            rows[..marked].fill([1, 1]);
            self.expect(&rows, 0, over, &count, marked >= m)?;
            self.expect(&rows, 0, over, &negated, marked < m)?;
        }
        Ok(())
    }

    /// Carts that are on the mark at step 0 alone: enough where all are and the count asks for one. The negation asks for one where the
    /// count asks for all; then it is enough that all are off the mark at step 0 alone. For a group that is a part neither is enough.
    fn with_drift(&mut self, percent: usize, over: Over, m: usize) -> Result<(), String> {
        let [count, negated] = ["", "!"].map(|not| over.clause(not, percent));
        let mut rows = vec![[1, 0]; over.carts()];
        let all = over.is_fleet();
        self.expect(&rows, 1, over, &count, m == 0 || m == 1 && all)?;
        rows.iter_mut().take(1).for_each(|row| *row = [0, 0]);
        self.expect(&rows, 1, over, &count, m == 0)?;
        rows.fill([0, 1]);
        self.expect(&rows, 1, over, &negated, m == over.carts() && all)?;
        rows.iter_mut().take(1).for_each(|row| *row = [1, 1]);
        self.expect(&rows, 1, over, &negated, false)
    }

    /// Both checkers accept, or refuse the clause at step 0.
    fn expect(
        &mut self,
        rows: &[Row],
        d: u8,
        over: Over,
        rules: &str,
        kept: bool,
    ) -> Result<(), String> {
        let wanted = match kept {
            true => Verdict::ACCEPTED,
            false => Verdict::refused(RULES, Refusal(17, 0, 0)),
        };
        let verdict = both(&triple(rows, d, over, rules))?;
        self.checks += 1;
        if verdict == wanted {
            return Ok(());
        }
        Err(format!(
            "rows {rows:?}, drift {d}: {verdict}, but {wanted} is wanted"
        ))
    }
}

/// Beside a group there is a cart that is always on the mark.
fn triple(rows: &[Row], d: u8, over: Over, rules: &str) -> Triple {
    let mut floor: Vec<Written> = vec![(1, vec![0; 4]), (1, vec![2, 0, 0, 0])];
    floor.extend([(2, vec![0, 1, 255]), (2, vec![1, 0, 255])]);
    floor.extend(rows.iter().map(|row| (3, vec![0, row[0]])));
    let mut plan: Vec<Written> = vec![(4, vec![2, 0, 0, 0, d, 0])];
    plan.extend(rows.iter().map(|row| (5, row.to_vec())));
    if let Over::Group(carts) = over {
        floor.push((3, vec![0, 1]));
        floor.push((7, ((1u32 << carts) - 1).to_le_bytes().to_vec()));
        plan.push((5, vec![1, 1]));
    }
    Triple {
        floor: encode(&floor),
        plan: encode(&plan),
        rules: rules.into(),
    }
}
