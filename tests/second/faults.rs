//! Floors and plans with a fault in their records.

use crate::random::Random;
use crate::world::{encode, World, Written};

/// The records of a floor and a plan while faults are put into them.
pub struct Records {
    pub floor: Vec<Written>,
    pub plan: Vec<Written>,
}

impl Records {
    pub fn of(world: &World) -> Records {
        Records {
            floor: world.floor_records(),
            plan: world.plan_records(),
        }
    }

    pub fn files(&self) -> (Vec<u8>, Vec<u8>) {
        (encode(&self.floor), encode(&self.plan))
    }

    /// One of the two files.
    fn either(&mut self, random: &mut Random) -> &mut Vec<Written> {
        if random.chance(50) {
            &mut self.floor
        } else {
            &mut self.plan
        }
    }

    fn of_kind<'a>(&'a mut self, random: &mut Random, kind: u16) -> Option<&'a mut Written> {
        let file = if kind <= 3 || kind >= 6 {
            &mut self.floor
        } else {
            &mut self.plan
        };
        let found: Vec<usize> = (0..file.len()).filter(|i| file[*i].0 == kind).collect();
        match found.len() {
            0 => None,
            count => file.get_mut(found[random.below(count)]),
        }
    }

    fn places(&self) -> usize {
        self.floor.iter().filter(|record| record.0 == 1).count()
    }

    /// Puts in a fault of this number, as a rule.
    pub fn fault(&mut self, random: &mut Random, number: u32) {
        match number {
            3 => self.kind_out_of_place(random),
            4 => self.wrong_length(random),
            5 => self.one_too_many(random),
            6 => self.absent_place(random),
            7 => self.too_few(random),
            8 => self.head_out_of_range(random),
            9 => self.off_the_floor(random),
            10 => self.other_start(random),
            11 => self.no_lane(random),
            _ => unreachable!("no fault of records"),
        }
    }

    fn kind_out_of_place(&mut self, random: &mut Random) {
        let file = self.either(random);
        let at = random.below(file.len());
        let other = random.below(file.len());
        match random.below(4) {
            0 => file[at].0 = random.pick(&[0, 12, 13, 255, 256, 257, 1025, 65535]),
            1 => file[at].0 = random.range(1, 7) as u16,
            2 => file.swap(at, other),
            _ => {
                let copy = file[at].clone();
                file.insert(other, copy);
            }
        }
    }

    fn wrong_length(&mut self, random: &mut Random) {
        let file = self.either(random);
        let at = random.below(file.len());
        let body = &mut file[at].1;
        match random.below(4) {
            0 => body.push(random.next() as u8),
            1 => body.extend(vec![0; random.range(1, 300)]),
            2 => body.clear(),
            _ => {
                body.pop();
            }
        }
    }

    fn one_too_many(&mut self, random: &mut Random) {
        let kind = random.pick(&[1, 2, 3, 3, 5, 5, 6, 6, 7, 7]);
        let most = [0, 256, 1024, 32, 0, 0, 256, 8][kind as usize] + random.below(2);
        let Some(copy) = self.of_kind(random, kind).cloned() else {
            return;
        };
        let file = if kind == 5 {
            &mut self.plan
        } else {
            &mut self.floor
        };
        let last = file.iter().rposition(|record| record.0 == kind).unwrap();
        let have = file.iter().filter(|record| record.0 == kind).count();
        let more = most.saturating_sub(have).max(1);
        let copies = std::iter::repeat(copy).take(more);
        file.splice(last + 1..last + 1, copies);
    }

    fn absent_place(&mut self, random: &mut Random) {
        let absent = (self.places() + random.pick(&[0, 0, 1, 7])).min(255) as u8;
        let kind = random.pick(&[2, 3, 6]);
        if random.chance(20) {
            self.floor.remove(0);
            return;
        }
        if random.chance(25) {
            self.absent_cart(random);
            return;
        }
        let field = if kind == 6 { 0 } else { random.below(2) };
        let class = random.pick(&[8, 9, 255]);
        if let Some((_, body)) = self.of_kind(random, kind) {
            let class_field = kind == 3 && field == 0;
            let value = if class_field { class } else { absent };
            body.iter_mut().skip(field).take(1).for_each(|b| *b = value);
        }
    }

    /// A group with a cart that the floor does not have: the next one, the last there may be, or any; one cart fewer will do too.
    fn absent_cart(&mut self, random: &mut Random) {
        let carts = self.floor.iter().filter(|record| record.0 == 3).count();
        let first = self.floor.iter().position(|record| record.0 == 3);
        let next = carts.min(32);
        let any = random.range(next, 32);
        let absent = random.pick(&[next, next, 31, any]);
        if let (true, Some(cart)) = (random.chance(30), first) {
            self.floor.remove(cart);
        } else if absent == 32 {
            self.floor.push((7, vec![0; 4]));
        } else if let Some((_, body)) = self.of_kind(random, 7) {
            body.iter_mut().skip(absent / 8).take(1).for_each(|b| *b |= 1 << (absent % 8));
        } else {
            self.floor
                .push((7, (1u32 << absent).to_le_bytes().to_vec()));
        }
    }

    fn too_few(&mut self, random: &mut Random) {
        match random.below(6) {
            0 => self.floor.clear(),
            1 => self.floor.retain(|record| record.0 != 3),
            2 => self.plan.clear(),
            3 => self.plan.truncate(1),
            _ => {
                self.plan.pop();
            }
        }
    }

    fn head_out_of_range(&mut self, random: &mut Random) {
        let head = &mut self.plan[0].1;
        let field = random.below(3);
        let h = u16::from_le_bytes([head[0], head[1]]);
        let values = [
            [0, 65, 256, 64, random.next() as u16],
            [h, h + 1, h - 1, 64, random.next() as u16],
            [17, 16, 18, 256, random.next() as u16],
        ];
        let value = random.pick(&values[field]);
        head[2 * field..2 * field + 2].copy_from_slice(&value.to_le_bytes());
    }

    fn off_the_floor(&mut self, random: &mut Random) {
        let absent = (self.places() + random.pick(&[0, 0, 1, 30])).min(255) as u8;
        if let Some((_, row)) = self.of_kind(random, 5) {
            set_any(random, row, absent);
        }
    }

    fn other_start(&mut self, random: &mut Random) {
        let place = random.below(self.places()) as u8;
        let kind = random.pick(&[3, 5]);
        if let Some((_, body)) = self.of_kind(random, kind) {
            body[if kind == 3 { 1 } else { 0 }] = place;
        }
    }

    fn no_lane(&mut self, random: &mut Random) {
        let place = random.below(self.places()) as u8;
        match random.below(4) {
            0 => {
                let lanes = self.floor.iter().filter(|record| record.0 == 2).count();
                if lanes > 0 {
                    self.floor.remove(self.places() + random.below(lanes));
                }
            }
            1 => {
                if let Some((_, lane)) = self.of_kind(random, 2) {
                    lane[2] &= !(1 << random.below(8));
                }
            }
            2 => {
                let head = &mut self.plan[0].1;
                head[2] = random.below(head[0] as usize) as u8;
            }
            _ => {
                if let Some((_, row)) = self.of_kind(random, 5) {
                    set_any(random, row, place);
                }
            }
        }
    }
}

fn set_any(random: &mut Random, body: &mut [u8], value: u8) {
    if !body.is_empty() {
        body[random.below(body.len())] = value;
    }
}
