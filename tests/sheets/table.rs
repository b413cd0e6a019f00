//! How often each answer came, and for which reason; and which ones a run has to show.

use crate::levels::Open;
use crate::reference::Reason;

/// Where a case comes from.
#[derive(Clone, Copy)]
pub enum Source {
    ByHand,
    Changed,
    Random,
}

/// Due by hand, by changed bytes and by chance.
const ALWAYS: [bool; 3] = [true, true, true];
/// A changed byte changes no length, and no clause is picked there.
const NOT_CHANGED: [bool; 3] = [true, false, true];

const ROWS: [(Reason, &str, [bool; 3]); 20] = [
    (Reason::Accepted, "accepted", ALWAYS),
    (Reason::AcceptedGroup, "accepted, with @", ALWAYS),
    (Reason::Empty, "7 empty", NOT_CHANGED),
    (Reason::TooLong, "12 too long", NOT_CHANGED),
    (Reason::WrongByte, "13 wrong byte", ALWAYS),
    (Reason::WrongGroup, "13 behind @", ALWAYS),
    (Reason::EndsEarly, "13 ends early", ALWAYS),
    (Reason::Line, "14 33rd line", ALWAYS),
    (Reason::Node, "14 129th node", ALWAYS),
    (Reason::Level(Open::Parenthesis), "14 level: (", ALWAYS),
    (Reason::Level(Open::Count), "14 level: [", ALWAYS),
    (Reason::Level(Open::Prefix), "14 level: prefix", ALWAYS),
    (Reason::Level(Open::Until), "14 level: U or R", ALWAYS),
    (Reason::Mark, "15 mark", ALWAYS),
    (Reason::Number, "15 number", ALWAYS),
    (Reason::Percentage, "15 percentage", ALWAYS),
    (Reason::Picked, "clause picked", NOT_CHANGED),
    (Reason::OtherLength, "none: other length", NOT_CHANGED),
    (Reason::OtherVerdict, "none: other verdict", NOT_CHANGED),
    (Reason::NoClause, "none: no such clause", NOT_CHANGED),
];

#[derive(Default)]
pub struct Table {
    counts: [[usize; 3]; ROWS.len()],
}

impl Table {
    /// Counts an answer that is as it has to be.
    pub fn count(&mut self, reason: Reason, source: Source) {
        let row = ROWS.iter().position(|row| row.0 == reason);
        let row = row.expect("every reason has a row");
        self.counts[row][source as usize] += 1;
    }

    /// Prints the table and answers how many of its places are wrong: a reason that was due and
    /// never came, or one that came and can't.
    pub fn print(&self) -> usize {
        let mut wrong = 0;
        println!("{:22}{:>9}{:>9}{:>9}", "", "by hand", "changed", "random");
        for ((_, name, due), counts) in ROWS.iter().zip(self.counts) {
            print!("{name:22}");
            for (&due, count) in due.iter().zip(counts) {
                wrong += usize::from(due != (count > 0));
                match due || count > 0 {
                    true => print!("{count:>9}"),
                    false => print!("{:>9}", "."),
                }
            }
            println!();
        }
        wrong
    }
}
