//! Random sheets within the limits, kept or broken by the rows they are made for.

use crate::clauses::Clauses;
use crate::formula::{Clause, Op};
use crate::print::Printer;
use crate::sheet;
use crate::verdict::Refusal;

#[derive(Clone, Copy, PartialEq)]
pub enum Wish {
    Kept,
    Broken,
    Any,
}

/// A sheet of so many clauses; of broken ones at least the one at a random place.
pub fn sheet(clauses: &mut Clauses, count: usize, wish: Wish) -> Vec<u8> {
    let broken = clauses.random.below(count);
    let mut sheet = Vec::new();
    for i in 0..count {
        let own = match wish {
            Wish::Broken if i == broken => Wish::Broken,
            Wish::Broken if clauses.random.chance(70) => Wish::Kept,
            Wish::Broken => Wish::Any,
            other => other,
        };
        let line = line(clauses, own);
        if sheet.len() + line.len() <= sheet::LONGEST_SHEET {
            sheet.extend(line);
        }
    }
    sheet
}

/// A sheet of so many clauses about ors of counts.
pub fn about_ors(clauses: &mut Clauses, count: usize) -> Vec<u8> {
    let mut sheet = Vec::new();
    while sheet.is_empty() || sheet.iter().filter(|byte| **byte == 10).count() < count {
        let clause = clauses.about_ors();
        let line = Printer::new(clauses.random).line(&clause);
        if within_limits(&line, &clause) {
            sheet.extend(line);
        }
    }
    sheet
}

/// A sheet of so many clauses, at least one of which names a group that the floor lacks.
pub fn lacking(clauses: &mut Clauses, count: usize) -> Vec<u8> {
    let lacks = clauses.random.below(count);
    let mut sheet = Vec::new();
    for i in 0..count {
        sheet.extend(loop {
            let nodes = clauses.nodes();
            let mut clause = match clauses.random.chance(25) {
                true => clauses.about_ors(),
                false => clauses.clause(nodes),
            };
            let often = clauses.random.pick(&[0, 20, 50, 100]);
            let named = clauses.lacking_groups(&mut clause, often);
            let line = Printer::new(clauses.random).line(&clause);
            if within_limits(&line, &clause) && (i != lacks || named) {
                break line;
            }
        });
    }
    sheet
}

/// A short line that looks at later moments by X alone.
pub fn about_next(clauses: &mut Clauses) -> Vec<u8> {
    let mut clause = Clause::default();
    let mut next = |clauses: &mut Clauses| {
        let nodes = clauses.random.range(1, 3);
        let mut part = clauses.count(&mut clause, nodes);
        for _ in 0..clauses.random.pick(&[0, 1, 1, 2, 3]) {
            part = clause.push(Op::Next, part, 0);
        }
        part
    };
    let sides = [next(clauses), next(clauses)];
    let op = clauses.random.pick(&[Op::And, Op::Or]);
    let both = clause.push(op, sides[0], sides[1]);
    clause.root = clause.push(Op::Next, both, 0);
    Printer::new(clauses.random).line(&clause)
}

/// How many clauses a sheet gets.
pub fn count(clauses: &mut Clauses) -> usize {
    let (low, high) = [(1, 1), (2, 4), (5, 12), (13, 32)][clauses.random.weighted(&[50, 39, 9, 2])];
    clauses.random.range(low, high)
}

pub fn line(clauses: &mut Clauses, wish: Wish) -> Vec<u8> {
    for _ in 0..16 {
        let nodes = clauses.nodes();
        let clause = clauses.clause(nodes);
        let line = Printer::new(clauses.random).line(&clause);
        if within_limits(&line, &clause) && granted(clauses, &clause, wish) {
            return line;
        }
    }
    match wish {
        Wish::Broken => b"[true,33]\n".to_vec(),
        _ => b"[true,100%]\n".to_vec(),
    }
}

fn granted(clauses: &Clauses, clause: &Clause, wish: Wish) -> bool {
    let kept = || clauses.collection.broken_at(clause).is_none();
    match wish {
        Wish::Kept => kept(),
        Wish::Broken => !kept(),
        Wish::Any => true,
    }
}

/// Whether the line can be read; then it has to be read as the clause it was printed from.
fn within_limits(line: &[u8], clause: &Clause) -> bool {
    match sheet::read(line) {
        Ok(read) => {
            let same = read.len() == 1 && read[0].same(read[0].root, clause, clause.root);
            assert!(same, "read otherwise: {:?}", String::from_utf8_lossy(line));
            true
        }
        Err(Refusal(14, _, _)) => false,
        Err(other) => panic!("{other:?}: {:?}", String::from_utf8_lossy(line)),
    }
}
