//! Lengths that a 32-bit number can't hold: cut to 32 bits, each of these would be a valid file or
//! row, or at least one short enough. All of them are too long; only room is never too much.

use std::alloc::{alloc_zeroed, Layout};

use crate::library;
use crate::limits::{paper_floor, paper_plan};
use crate::reference::Verdict;

const TURN: usize = 1 << 32;

/// Zeros a little beyond 4 GiB. Pages that nobody writes to take no memory.
fn zeros() -> Option<Vec<u32>> {
    let count = TURN / 4 + 1_024;
    let layout = Layout::array::<u32>(count).ok()?;
    // SAFETY: the layout is not empty, and a vector takes over what has exactly that layout.
    unsafe {
        let start = alloc_zeroed(layout).cast::<u32>();
        (!start.is_null()).then(|| Vec::from_raw_parts(start, count, count))
    }
}

struct Wide {
    block: Vec<u32>,
    out: [u8; 128],
    complaints: Vec<String>,
}

impl Wide {
    /// The first `length` bytes of the block, beginning with `file`.
    fn bytes<'a>(block: &'a mut [u32], file: &[u8], length: usize) -> &'a mut [u8] {
        // SAFETY: every u32 is four valid bytes, and every four bytes are a u32.
        let (_, bytes, _) = unsafe { block.align_to_mut::<u8>() };
        bytes[..128].fill(0);
        bytes[..file.len()].copy_from_slice(file);
        &mut bytes[..length]
    }

    fn expect(&mut self, name: &str, verdict: Verdict, due: Verdict) {
        if verdict != due {
            let complaint = format!("{name}: library {verdict:?}, due {due:?}");
            self.complaints.push(complaint);
        }
        if self.out != [0xa5; 128] {
            self.complaints.push(format!("{name}: out has changed"));
            self.out = [0xa5; 128];
        }
    }

    fn reads(&mut self) {
        let floor = Wide::bytes(&mut self.block, &paper_floor(), TURN + 56);
        let verdict = library::read_floor(Some(floor));
        self.expect("floor", verdict, [1, 1, 0, 0]);
        let plan = Wide::bytes(&mut self.block, &paper_plan(), TURN + 26);
        let verdict = library::read_plan(Some(&mut paper_floor()), Some(plan));
        self.expect("plan", verdict, [2, 1, 0, 0]);
    }

    fn checks(&mut self) {
        let floor = Wide::bytes(&mut self.block, &paper_floor(), TURN + 56);
        let verdict = library::check_moves(Some(floor), Some(&mut paper_plan()));
        self.expect("floor of moves", verdict, [1, 1, 0, 0]);
        let plan = Wide::bytes(&mut self.block, &paper_plan(), TURN + 26);
        let verdict = library::check_moves(Some(&mut paper_floor()), Some(plan));
        self.expect("plan of moves", verdict, [2, 1, 0, 0]);
    }

    fn moved(&mut self) {
        let floor = Some(&mut paper_floor()[..]);
        let plan = Wide::bytes(&mut self.block, &paper_plan(), TURN + 26);
        let verdict = library::move_on(floor, Some(plan), 1, Some(&mut self.out));
        self.expect("plan to move on", verdict, [2, 1, 0, 0]);
    }

    /// Moves the paper's plan on by one step, with this room.
    fn room(&mut self, length: usize) {
        let (mut floor, mut plan) = (paper_floor(), paper_plan());
        let out = Wide::bytes(&mut self.block, &[], length);
        let verdict = library::move_on(Some(&mut floor), Some(&mut plan), 1, Some(out));
        self.expect("room", verdict, [0, 0, 26, 0]);
        let mut due = [0; 128];
        due[..14].copy_from_slice(&plan[..14]);
        due[14..18].copy_from_slice(&[1, 1, 0, 0]);
        due[18..22].copy_from_slice(&plan[18..22]);
        due[22..26].copy_from_slice(&[0, 1, 1, 0]);
        let bytes: Vec<u8> = self.block[..32]
            .iter()
            .flat_map(|word| word.to_ne_bytes())
            .collect();
        if bytes != due {
            self.complaints.push("room: another result".to_string());
        }
    }

    fn replaced(&mut self) {
        let plan = Wide::bytes(&mut self.block, &paper_plan(), TURN + 26);
        let row = Some(&mut [0; 4][..]);
        let verdict = library::replace_row(Some(&mut paper_floor()), Some(plan), 0, row);
        self.expect("plan of a row", verdict, [2, 1, 0, 0]);
        let mut plan = paper_plan();
        let row = Wide::bytes(&mut self.block, &[], TURN + 4);
        let verdict = library::replace_row(Some(&mut paper_floor()), Some(&mut plan), 0, Some(row));
        self.expect("row", verdict, [2, 4, 0, 0]);
        if plan != paper_plan() {
            self.complaints
                .push("row: the plan has changed".to_string());
        }
    }

    fn places(&mut self) {
        let places = &mut self.block[..TURN / 8];
        let out = &mut self.out;
        let verdict =
            library::write_floor(Some(places), None, Some(&mut [0, 0]), None, None, Some(out));
        self.expect("places", verdict, [1, 1, 0, 0]);
    }

    fn lanes(&mut self, length: usize) {
        let lanes = Wide::bytes(&mut self.block, &[], length);
        let out = &mut self.out;
        let carts = Some(&mut [0, 0][..]);
        let verdict =
            library::write_floor(Some(&mut [1]), Some(lanes), carts, None, None, Some(out));
        self.expect("lanes", verdict, [1, 1, 0, 0]);
    }

    fn carts(&mut self, length: usize) {
        let carts = Wide::bytes(&mut self.block, &[], length);
        let out = &mut self.out;
        let verdict =
            library::write_floor(Some(&mut [1]), None, Some(carts), None, None, Some(out));
        self.expect("carts", verdict, [1, 1, 0, 0]);
    }

    fn narrow(&mut self, length: usize) {
        let narrow = Wide::bytes(&mut self.block, &[], length);
        let (carts, out) = (Some(&mut [0, 0][..]), &mut self.out);
        let verdict =
            library::write_floor(Some(&mut [1]), None, carts, Some(narrow), None, Some(out));
        self.expect("narrow", verdict, [1, 1, 0, 0]);
    }

    fn groups(&mut self, count: usize) {
        let groups = Some(&mut self.block[..count]);
        let (carts, out) = (Some(&mut [0, 0][..]), &mut self.out);
        let verdict = library::write_floor(Some(&mut [1]), None, carts, None, groups, Some(out));
        self.expect("groups", verdict, [1, 1, 0, 0]);
    }

    fn rows(&mut self, h: u16, length: usize) {
        let rows = Wide::bytes(&mut self.block, &[], length);
        let floor = Some(&mut paper_floor()[..]);
        let verdict = library::write_plan(floor, [h, 0, 0], Some(rows), Some(&mut self.out));
        self.expect("rows", verdict, [2, 1, 0, 0]);
    }
}

/// What the library gets wrong here; nothing if the machine has no room for such lengths.
pub fn complaints() -> Vec<String> {
    let Some(block) = zeros() else {
        println!("files: lengths above 32 bits left out, no address space for them");
        return Vec::new();
    };
    let mut wide = Wide {
        block,
        out: [0xa5; 128],
        complaints: Vec::new(),
    };
    wide.reads();
    wide.places();
    // The length itself past 32 bits, then the result's length only.
    wide.lanes(TURN + 12);
    wide.lanes(3 * 613_566_757);
    wide.carts(TURN + 4);
    wide.carts(2 * 715_827_883);
    wide.narrow(TURN + 1);
    wide.narrow(858_993_460);
    wide.groups(TURN / 8);
    wide.groups(TURN / 4 + 1);
    wide.rows(4, TURN + 8);
    wide.rows(4, TURN / 2);
    wide.rows(0, TURN);
    wide.checks();
    wide.moved();
    wide.room(TURN);
    wide.room(TURN + 25);
    wide.replaced();
    wide.complaints
}
