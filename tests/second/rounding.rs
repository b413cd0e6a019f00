//! Percentages rounded otherwise, to count the verdicts that tell the ways of rounding apart.

use crate::formula::{Clause, Node, Op, Threshold};
use crate::logic::Collection;
use crate::runs::Read;
use crate::verdict::Refusal;

/// What is counted: percentages that decide, then verdicts that each of OTHERS would change.
pub const WAYS: [&str; 7] = [
    "percentages that decide at half a cart",
    "percentages above 0 that decide by asking for no cart",
    "verdicts that rounding up would change",
    "verdicts that rounding down would change",
    "verdicts that a half going down would change",
    "verdicts that a half going to the even number would change",
    "verdicts that rounding after negation would change",
];

/// Hundredths of a cart, and whether the count is negated, to carts.
type Rounding = fn(usize, bool) -> usize;

const OTHERS: [Rounding; 5] = [
    |share, _| share.div_ceil(100),
    |share, _| share / 100,
    |share, _| half_down(share),
    |share, _| half_down(share + share / 100 % 2),
    // A half that goes up in N + 1 - m leaves the lower m.
    |share, negated| half_down(share + !negated as usize),
];

fn half_down(share: usize) -> usize {
    (share + 49) / 100
}

/// How often each way is met in a triple whose clauses are judged so.
pub fn ways(read: &Read, judged: Result<(), Refusal>) -> [usize; WAYS.len()] {
    let collection = Collection::new(&read.floor, &read.plan);
    let looked_at = match judged {
        Ok(()) => read.clauses.len(),
        Err(Refusal(_, clause, _)) => clause + 1,
    };
    let mut ways = [0; WAYS.len()];
    for clause in &read.clauses[..looked_at] {
        let [half, none] = deciding(&collection, clause);
        ways[0] += half;
        ways[1] += none;
    }
    for (way, rounding) in ways[2..].iter_mut().zip(OTHERS) {
        *way = changes(&collection, &read.clauses, judged, rounding) as usize;
    }
    ways
}

/// How many of a clause's percentages are half a cart over, and how many above 0 ask for no cart, where a cart less or more would
/// change what is said of the clause.
fn deciding(collection: &Collection, clause: &Clause) -> [usize; 2] {
    let mut found = [0; 2];
    for (node, threshold, _) in percentages(clause) {
        let carts = collection.over(threshold.group).len();
        let (share, m) = (threshold.share(carts), threshold.of(carts));
        let kinds = [share % 100 == 50, share > 0 && m == 0];
        let with = |m| collection.broken_at(&with_number(clause, node, m));
        let decides = || with(m + 1) != with(m) || m > 0 && with(m - 1) != with(m);
        if kinds.contains(&true) && decides() {
            found[0] += kinds[0] as usize;
            found[1] += kinds[1] as usize;
        }
    }
    found
}

/// The nodes of a clause's percentages, with whether an odd number of negations stands above.
fn percentages(clause: &Clause) -> Vec<(usize, Threshold, bool)> {
    let mut found = Vec::new();
    collect(clause, clause.root, false, &mut found);
    found
}

fn collect(clause: &Clause, node: usize, negated: bool, found: &mut Vec<(usize, Threshold, bool)>) {
    let Node { op, left, right } = clause.nodes[node];
    let below = negated != (op == Op::Not);
    match op {
        Op::Count(threshold) if threshold.percent => found.push((node, threshold, negated)),
        Op::Count(_) => {}
        _ if op.operands() == 2 => {
            collect(clause, left, below, found);
            collect(clause, right, below, found);
        }
        _ if op.operands() == 1 => collect(clause, left, below, found),
        _ => {}
    }
}

/// The clause with another number of carts for one count.
fn with_number(clause: &Clause, node: usize, m: usize) -> Clause {
    let mut other = clause.clone();
    if let Op::Count(threshold) = &mut other.nodes[node].op {
        *threshold = Threshold::plain(m).over(threshold.group);
    }
    other
}

/// Whether clauses judged so would be judged otherwise by another rounding.
fn changes(
    collection: &Collection,
    clauses: &[Clause],
    judged: Result<(), Refusal>,
    rounding: Rounding,
) -> bool {
    let mut others = clauses.to_vec();
    let mut same = true;
    for other in &mut others {
        for (node, threshold, negated) in percentages(other) {
            let carts = collection.over(threshold.group).len();
            let m = rounding(threshold.share(carts), negated);
            same &= m == threshold.of(carts);
            *other = with_number(other, node, m);
        }
    }
    !same && collection.check(&others) != judged
}
