//! The whole check of a plan: its stages in order.

use crate::conflicts;
use crate::floor::Floor;
use crate::logic::Collection;
use crate::plan::Plan;
use crate::sheet;
use crate::verdict::{Verdict, FLOOR, PLAN, RULES};

pub fn check(floor: &[u8], plan: &[u8], rules: &[u8]) -> Verdict {
    match stages(floor, plan, rules) {
        Ok(()) => Verdict::ACCEPTED,
        Err(verdict) => verdict,
    }
}

fn stages(floor: &[u8], plan: &[u8], rules: &[u8]) -> Result<(), Verdict> {
    let about = |file| move |refusal| Verdict::refused(file, refusal);
    let floor = Floor::read(floor).map_err(about(FLOOR))?;
    let plan = Plan::read(plan, &floor).map_err(about(PLAN))?;
    plan.check_moves(&floor).map_err(about(PLAN))?;
    conflicts::check(&floor, &plan).map_err(about(PLAN))?;
    let clauses = sheet::read(rules).map_err(about(RULES))?;
    let collection = Collection::new(&floor, &plan);
    collection.check(&clauses).map_err(about(RULES))
}
