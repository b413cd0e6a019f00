//! What a check answers: the file it is about, the refusal's number and its two further numbers.

use std::fmt;

pub const FLOOR: u32 = 1;
pub const PLAN: u32 = 2;
pub const RULES: u32 = 3;

#[derive(Clone, Copy, Debug, PartialEq, Eq)]
pub struct Verdict {
    pub about: u32,
    pub number: u32,
    pub first: u32,
    pub second: u32,
}

/// A refusal before it is known which file it is about: number, first, second.
#[derive(Clone, Copy, Debug, PartialEq, Eq)]
pub struct Refusal(pub u32, pub usize, pub usize);

impl Verdict {
    pub const ACCEPTED: Verdict = Verdict {
        about: 0,
        number: 0,
        first: 0,
        second: 0,
    };

    pub fn refused(about: u32, refusal: Refusal) -> Verdict {
        let Refusal(number, first, second) = refusal;
        Verdict {
            about,
            number,
            first: first as u32,
            second: second as u32,
        }
    }
}

impl fmt::Display for Verdict {
    fn fmt(&self, f: &mut fmt::Formatter) -> fmt::Result {
        if self.number == 0 {
            return write!(f, "accepted ({} {})", self.first, self.second);
        }
        let file = ["", "floor ", "plan ", "rules "];
        match file.get(self.about as usize) {
            Some(name) => write!(
                f,
                "refused {name}{} {} {}",
                self.number, self.first, self.second
            ),
            None => write!(f, "{self:?}"),
        }
    }
}
