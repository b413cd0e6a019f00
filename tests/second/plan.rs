//! The reader of a plan, and the check of its moves (equation 4).

use crate::floor::Floor;
use crate::record::{number_at, Record, LONGEST_FILE};
use crate::verdict::Refusal;

#[derive(Clone)]
pub struct Plan {
    pub h: usize,
    pub l: usize,
    pub d: usize,
    pub rows: Vec<Vec<u8>>,
}

impl Plan {
    pub fn read(file: &[u8], floor: &Floor) -> Result<Plan, Refusal> {
        if file.len() > LONGEST_FILE {
            return Err(Refusal(1, 0, 0));
        }
        if file.is_empty() {
            return Err(Refusal(7, 0, 0));
        }
        let head = Record::at(file, 0)?;
        let mut plan = Plan::from_head(&head)?;
        let mut offset = head.end();
        while offset < file.len() {
            let record = Record::at(file, offset)?;
            plan.take_row(&record, floor)?;
            offset = record.end();
        }
        if plan.rows.len() < floor.carts.len() {
            return Err(Refusal(7, file.len(), 0));
        }
        Ok(plan)
    }

    fn from_head(record: &Record) -> Result<Plan, Refusal> {
        record.demand(record.kind == 4, 3)?;
        record.demand(record.body.len() == 6, 4)?;
        let [h, l, d] = [0, 2, 4].map(|at| number_at(record.body, at) as usize);
        record.demand((1..=64).contains(&h) && l < h && d <= 16, 8)?;
        let rows = Vec::new();
        Ok(Plan { h, l, d, rows })
    }

    fn take_row(&mut self, record: &Record, floor: &Floor) -> Result<(), Refusal> {
        record.demand(record.kind == 5, 3)?;
        record.demand(record.body.len() == self.h, 4)?;
        record.demand(self.rows.len() < floor.carts.len(), 5)?;
        let on_floor = |place: &u8| (*place as usize) < floor.places.len();
        record.demand(record.body.iter().all(on_floor), 9)?;
        self.rows.push(record.body.to_vec());
        Ok(())
    }

    /// The step that a counter stands on.
    pub fn step(&self, counter: usize) -> usize {
        step_of(counter, self.h, self.l)
    }

    /// Each cart begins at its start, and leaves every step by a lane open to its class or stays on its place.
    pub fn check_moves(&self, floor: &Floor) -> Result<(), Refusal> {
        let open = adjacency(floor);
        for (n, (cart, row)) in floor.carts.iter().zip(&self.rows).enumerate() {
            if row[0] != cart.start {
                return Err(Refusal(10, n, 0));
            }
            let blocked = |&t: &usize| {
                let (from, to) = (row[t] as usize, row[self.step(t + 1)] as usize);
                open[from * floor.places.len() + to] >> cart.class & 1 == 0
            };
            if let Some(step) = (0..self.h).find(blocked) {
                return Err(Refusal(11, n, step));
            }
        }
        Ok(())
    }
}

/// The step that a counter stands on, of h steps with a lap from l on.
pub fn step_of(counter: usize, h: usize, l: usize) -> usize {
    if counter < h {
        counter
    } else {
        l + (counter - l) % (h - l)
    }
}

/// The adjacency matrices of all classes at once: the classes that may go from a place to another. Every
/// class may park, so that the diagonal is full.
fn adjacency(floor: &Floor) -> Vec<u8> {
    let places = floor.places.len();
    let mut open = vec![0; places * places];
    open.iter_mut()
        .step_by(places + 1)
        .for_each(|classes| *classes = 255);
    for lane in &floor.lanes {
        open[lane.from * places + lane.to] |= lane.classes;
    }
    open
}
