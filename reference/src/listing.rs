//! The listing: what a job's answer looks like, each line ended by LF.

use crate::judge::Moved;
use crate::refusal::Refusal;
use crate::sheet::form;

/// The listing of an answer of judge, or of a refusal up to 13 or by 23.
pub fn listing(answer: &Result<Moved, Refusal>) -> String {
    match answer {
        Ok(facts) => moved(facts),
        Err(refusal) => format!("(refused {} {})\n", refusal.number, refusal.second),
    }
}

/// The lines of a moved job, in 01's order.
fn moved(facts: &Moved) -> String {
    let (kept, dropped) = (facts.kept.len(), facts.dropped);
    let mut lines = vec![format!("(moved (kept {kept}) (dropped {dropped}))")];
    for (occurrence, others) in &facts.after {
        if !others.is_empty() {
            lines.push(form("after", &[vec![*occurrence], others.clone()].concat()));
        }
    }
    let places: Vec<u64> = facts.marking.iter().copied().collect();
    lines.push(form("order", &facts.order));
    lines.push(form("marking", &places));
    for (variable, writer) in &facts.values {
        lines.push(format!("(value {variable} {writer})"));
    }
    lines.iter().map(|line| format!("{line}\n")).collect()
}
