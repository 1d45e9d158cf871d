//! Levels in words: a class and a set of needs-to-know. How one compares with another is asked of the library.

use circmon::{compare, Comparison};

pub use circmon::Level;

/// Why a level does not dominate another, said behind the name of the one with that of the other: which answer the comparison
/// gives, and what is missing. Nothing where it does dominate.
pub fn shortfall(level: Level, other: Level, name: &str) -> Option<String> {
    let answer = match compare(level, other) {
        Comparison::Equal | Comparison::Above => return None,
        Comparison::Below => format!("is below {name} and does not dominate it"),
        Comparison::Apart => format!("is apart from {name}, neither dominates the other"),
    };
    Some(format!("{answer}; missing: {}", missing(level, other)))
}

/// What a level lacks of another: the class, needs, or both.
pub fn missing(level: Level, other: Level) -> String {
    let needs = other.needs & !level.needs;
    let parts = [
        (level.class < other.class).then(|| format!("the class ({} is under {})", level.class, other.class)),
        (needs != 0).then(|| format!("needs {}", set(needs))),
    ];
    parts.into_iter().flatten().collect::<Vec<_>>().join(" and ")
}

/// A set of needs: `{0,1}`, or `{}` where it is empty.
fn set(needs: u16) -> String {
    let needs: Vec<String> = (0..16).filter(|need| needs >> need & 1 == 1).map(|need| need.to_string()).collect();
    format!("{{{}}}", needs.join(","))
}

/// As scripts write it: `class 3 needs {0,1}`, `class 0 needs {}`.
pub fn level_words(level: Level) -> String {
    format!("class {} needs {}", level.class, set(level.needs))
}

/// What stands for an absent label. It never looks like a level.
pub const NO_LABEL: &str = "no label";

pub fn label_words(label: Option<Level>) -> String {
    label.map_or(NO_LABEL.to_string(), level_words)
}

#[cfg(test)]
mod tests {
    use super::*;

    const LEVEL: Level = Level { class: 2, needs: 0b011 };

    /// What is said of a level beside `LEVEL`.
    fn said(class: u8, needs: u16) -> Option<String> {
        shortfall(Level { class, needs }, LEVEL, "it")
    }

    #[test]
    fn nothing_is_missing_where_a_level_dominates() {
        for (class, needs) in [(2, 0b011), (3, 0b011), (2, 0b111), (15, 0xFFFF)] {
            assert_eq!(said(class, needs), None, "class {class} needs {needs:b}");
        }
    }

    #[test]
    fn the_answer_and_what_is_missing_are_said() {
        let (below, apart) = ("is below it and does not dominate it", "is apart from it, neither dominates the other");
        for (class, needs, answer, missing) in [
            (1, 0b011, below, "the class (1 is under 2)"),
            (2, 0b001, below, "needs {1}"),
            (0, 0b000, below, "the class (0 is under 2) and needs {0,1}"),
            (1, 0b111, apart, "the class (1 is under 2)"),
            (3, 0b010, apart, "needs {0}"),
            (2, 0b100, apart, "needs {0,1}"),
            (1, 0b101, apart, "the class (1 is under 2) and needs {1}"),
        ] {
            assert_eq!(said(class, needs), Some(format!("{answer}; missing: {missing}")), "class {class} {needs:b}");
        }
    }

    #[test]
    fn an_absent_label_does_not_read_like_class_0() {
        assert_eq!(label_words(Some(Level { class: 0, needs: 0 })), "class 0 needs {}");
        assert_eq!(label_words(None), "no label");
    }
}
