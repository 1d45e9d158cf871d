//! Dominance once more, by a plain test of each need, asked of neither implementation.

use reference::Level;

/// "A dominates B when A's class is at least B's and every need of B is in A."
pub fn dominates(a: Level, b: Level) -> bool {
    let has = |level: Level, need: u32| level.needs / 2u16.pow(need) % 2 == 1;
    a.class >= b.class && (0..16).all(|need| has(a, need) || !has(b, need))
}

/// "An absent label is none of these": without a label nothing dominates.
pub fn label_dominates(a: Option<Level>, b: Option<Level>) -> bool {
    matches!((a, b), (Some(a), Some(b)) if dominates(a, b))
}
