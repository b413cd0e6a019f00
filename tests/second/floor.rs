//! The reader of a floor: places, lanes, carts, narrow places and groups.

use crate::record::{Record, LONGEST_FILE};
use crate::verdict::Refusal;

pub struct Lane {
    pub from: usize,
    pub to: usize,
    pub classes: u8,
}

pub struct Cart {
    pub class: u8,
    pub start: u8,
}

#[derive(Default)]
pub struct Floor {
    /// The marks of each place, m0 in the lowest bit: the labels L of definition 1.
    pub places: Vec<u32>,
    pub lanes: Vec<Lane>,
    pub carts: Vec<Cart>,
    /// The places that hold one cart, as often as they are named.
    pub narrow: Vec<u8>,
    /// The carts of each group, cart 0 in the lowest bit.
    pub groups: Vec<u32>,
}

impl Floor {
    pub fn read(file: &[u8]) -> Result<Floor, Refusal> {
        if file.len() > LONGEST_FILE {
            return Err(Refusal(1, 0, 0));
        }
        let mut floor = Floor::default();
        let mut offset = 0;
        while offset < file.len() {
            let record = Record::at(file, offset)?;
            floor.take(&record)?;
            offset = record.end();
        }
        if floor.places.is_empty() || floor.carts.is_empty() {
            return Err(Refusal(7, file.len(), 0));
        }
        Ok(floor)
    }

    /// Kinds may only grow along the file.
    fn in_order(&self, kind: u16) -> bool {
        let seen = [
            (1, self.places.is_empty()),
            (2, self.lanes.is_empty()),
            (3, self.carts.is_empty()),
            (6, self.narrow.is_empty()),
            (7, self.groups.is_empty()),
        ];
        let known = seen.iter().any(|(other, _)| *other == kind);
        known && seen.iter().all(|(other, none)| *other <= kind || *none)
    }

    fn take(&mut self, record: &Record) -> Result<(), Refusal> {
        record.demand(self.in_order(record.kind), 3)?;
        match record.kind {
            1 => self.take_place(record),
            2 => self.take_lane(record),
            3 => self.take_cart(record),
            6 => self.take_narrow(record),
            _ => self.take_group(record),
        }
    }

    fn take_place(&mut self, record: &Record) -> Result<(), Refusal> {
        record.demand(record.body.len() == 4, 4)?;
        record.demand(self.places.len() < 256, 5)?;
        let b = record.body;
        self.places
            .push(u32::from_le_bytes([b[0], b[1], b[2], b[3]]));
        Ok(())
    }

    fn take_lane(&mut self, record: &Record) -> Result<(), Refusal> {
        record.demand(record.body.len() == 3, 4)?;
        record.demand(self.lanes.len() < 1024, 5)?;
        let (from, to) = (record.body[0] as usize, record.body[1] as usize);
        record.demand(from < self.places.len() && to < self.places.len(), 6)?;
        let classes = record.body[2];
        self.lanes.push(Lane { from, to, classes });
        Ok(())
    }

    fn take_cart(&mut self, record: &Record) -> Result<(), Refusal> {
        record.demand(record.body.len() == 2, 4)?;
        record.demand(self.carts.len() < 32, 5)?;
        let (class, start) = (record.body[0], record.body[1]);
        record.demand(class <= 7 && (start as usize) < self.places.len(), 6)?;
        self.carts.push(Cart { class, start });
        Ok(())
    }

    fn take_narrow(&mut self, record: &Record) -> Result<(), Refusal> {
        record.demand(record.body.len() == 1, 4)?;
        record.demand(self.narrow.len() < 256, 5)?;
        let place = record.body[0];
        record.demand((place as usize) < self.places.len(), 6)?;
        self.narrow.push(place);
        Ok(())
    }

    fn take_group(&mut self, record: &Record) -> Result<(), Refusal> {
        record.demand(record.body.len() == 4, 4)?;
        record.demand(self.groups.len() < 8, 5)?;
        let b = record.body;
        let group = u32::from_le_bytes([b[0], b[1], b[2], b[3]]);
        let absent = |n: usize| group >> n & 1 == 1 && n >= self.carts.len();
        record.demand(!(0..32).any(absent), 6)?;
        self.groups.push(group);
        Ok(())
    }
}
