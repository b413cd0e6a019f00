//! The verified check, through include/cartplan.h.

use crate::verdict::Verdict;

#[repr(C)]
struct CVerdict {
    about: u32,
    number: u32,
    first: u32,
    second: u32,
}

#[link(name = "controller", kind = "static")]
extern "C" {
    fn cartplan_check(
        floor: *const u8,
        floor_len: usize,
        plan: *const u8,
        plan_len: usize,
        rules: *const u8,
        rules_len: usize,
    ) -> CVerdict;
    fn cartplan_move_on(
        floor: *const u8,
        floor_len: usize,
        plan: *const u8,
        plan_len: usize,
        s: u16,
        out: *mut u8,
        out_len: usize,
    ) -> CVerdict;
}

impl From<CVerdict> for Verdict {
    fn from(c: CVerdict) -> Verdict {
        Verdict {
            about: c.about,
            number: c.number,
            first: c.first,
            second: c.second,
        }
    }
}

/// The answer, and whether the three lent buffers are as they were.
pub fn check(floor: &[u8], plan: &[u8], rules: &[u8]) -> (Verdict, bool) {
    // Copies that may change, so that a write to them would be seen.
    let mut lent = [floor.to_vec(), plan.to_vec(), rules.to_vec()];
    let lens = [floor.len(), plan.len(), rules.len()];
    let [f, p, r] = lent.each_mut().map(|file| file.as_mut_ptr());
    // Each pointer is valid for its length, and nothing else writes during the call.
    let c = unsafe { cartplan_check(f, lens[0], p, lens[1], r, lens[2]) };
    (
        c.into(),
        lent[0] == floor && lent[1] == plan && lent[2] == rules,
    )
}

/// What moving on answers with this buffer, which it may write to, and whether floor and plan are as they were.
pub fn move_on(floor: &[u8], plan: &[u8], s: u16, out: &mut [u8]) -> (Verdict, bool) {
    let mut lent = [floor.to_vec(), plan.to_vec()];
    let [f, p] = lent.each_mut().map(|file| file.as_mut_ptr());
    let (to, room) = (out.as_mut_ptr(), out.len());
    // As above, and no two of the buffers overlap.
    let c = unsafe { cartplan_move_on(f, floor.len(), p, plan.len(), s, to, room) };
    (c.into(), lent[0] == floor && lent[1] == plan)
}
