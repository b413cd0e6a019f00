//! Lengths that a 32-bit number can't hold: cut to 32 bits, each of these would be the length of
//! something else. None of these calls has to look at more than the first bytes.

use std::alloc::{alloc_zeroed, Layout};

use crate::library;
use crate::pick_cases::verdict_bytes;
use crate::reference::{Part, NO_PART};

const TURN: usize = 1 << 32;

/// Zeros a little beyond 4 GiB. Pages that nobody writes to take no memory.
fn zeros() -> Option<Vec<u8>> {
    let length = TURN + 4_096;
    let layout = Layout::array::<u8>(length).ok()?;
    // SAFETY: the layout is not empty, and a vector takes over what has exactly that layout.
    unsafe {
        let start = alloc_zeroed(layout);
        (!start.is_null()).then(|| Vec::from_raw_parts(start, length, length))
    }
}

/// The block's first `length` bytes, beginning with `bytes`.
fn wide<'a>(block: &'a mut [u8], bytes: &[u8], length: usize) -> &'a mut [u8] {
    block[..64].fill(0);
    block[..bytes.len()].copy_from_slice(bytes);
    &mut block[..length]
}

/// What the library gets wrong here; nothing if the machine has no room for such lengths.
pub fn complaints() -> Vec<String> {
    let Some(mut block) = zeros() else {
        println!("sheets: lengths above 32 bits left out, no address space for them");
        return Vec::new();
    };
    let mut complaints = Vec::new();
    for length in [TURN, TURN + 5, TURN + 6] {
        let verdict = library::read_rules(Some(wide(&mut block, b"true\n", length)));
        if verdict != [3, 12, 0, 0] {
            complaints.push(format!("a sheet of {length} bytes: library {verdict:?}"));
        }
    }
    let sheet = wide(&mut block, b"true\ntrue\ntrue\n", TURN + 8);
    let mut verdict = verdict_bytes([3, 17, 2, 0]);
    let part = library::clause(Some(sheet), Some(&mut verdict));
    let due = Part {
        offset: 10,
        length: 4,
    };
    if part != due {
        complaints.push(format!("a clause of a wide sheet: library {part:?}"));
    }
    let verdict = wide(&mut block, &verdict, TURN + 16);
    let part = library::clause(Some(&mut b"\nx\ny\n".to_vec()), Some(verdict));
    if part != NO_PART {
        complaints.push(format!("a wide verdict: library {part:?}"));
    }
    complaints
}
