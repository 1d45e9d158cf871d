//! The kinds of requests, one row for each: decoding, the reasons against bytes, scripts and sentences read it.

/// Which modes a kind takes.
#[derive(Clone, Copy, Debug, PartialEq, Eq)]
pub enum Takes {
    /// r, w, a or e
    OneMode,
    /// e or none
    Execute,
    NoMode,
}

/// A kind with the fields that it uses beside actor and object.
#[derive(Debug)]
pub struct Row {
    pub number: u32,
    /// the word of scripts
    pub name: &'static str,
    pub other: bool,
    pub class: bool,
    pub needs: bool,
    /// whether the field of the needs holds company numbers
    pub companies: bool,
    /// whether it holds a parent
    pub parent: bool,
    pub mode: Takes,
    /// what stands behind the actor in a script, and in a sentence
    pub script: &'static str,
    pub sentence: &'static str,
}

/// The row of a kind that uses no field; the others change it.
const fn row(number: u32, name: &'static str, script: &'static str, sentence: &'static str) -> Row {
    let (other, class, needs, companies, parent) = (false, false, false, false, false);
    Row { number, name, other, class, needs, companies, parent, mode: Takes::NoMode, script, sentence }
}

pub const KINDS: [Row; 8] = [
    Row { mode: Takes::OneMode, ..row(1, "get", "get MODE OBJECT", "gets MODE on OBJECT") },
    Row { mode: Takes::OneMode, ..row(2, "release", "release MODE OBJECT", "releases MODE on OBJECT") },
    Row { other: true, mode: Takes::OneMode, ..row(3, "give", "give OTHER MODE OBJECT", "gives OTHER MODE on OBJECT") },
    Row {
        other: true,
        mode: Takes::OneMode,
        ..row(4, "rescind", "rescind OTHER MODE OBJECT", "rescinds MODE on OBJECT from OTHER")
    },
    Row {
        parent: true,
        mode: Takes::Execute,
        ..row(5, "create", "create OBJECT under PARENT with MODE", "creates OBJECT under PARENT with MODE")
    },
    row(6, "delete", "delete OBJECT", "deletes OBJECT"),
    Row { class: true, needs: true, ..row(7, "level", "level OBJECT LEVEL", "changes the level of OBJECT to LEVEL") },
    Row {
        companies: true,
        ..row(8, "companies", "companies OBJECT COMPANIES", "sets the companies of OBJECT to COMPANIES")
    },
];

/// What stands in the words of a kind that may be created without e, where it is.
pub const WITH_MODE: &str = " with MODE";
/// The same of the parent.
pub const UNDER_PARENT: &str = " under PARENT";

impl Row {
    pub fn of_number(number: u32) -> Option<&'static Row> {
        KINDS.iter().find(|row| row.number == number)
    }

    pub fn of_name(name: &str) -> Option<&'static Row> {
        KINDS.iter().find(|row| row.name == name)
    }

    /// Whether the number of a mode, 0 for none, is allowed.
    pub fn allows(&self, mode: u32) -> bool {
        match self.mode {
            Takes::OneMode => (1..=4).contains(&mode),
            Takes::Execute => matches!(mode, 0 | 4),
            Takes::NoMode => mode == 0,
        }
    }
}

#[cfg(test)]
mod tests {
    use super::*;

    #[test]
    fn the_words_of_a_kind_name_the_fields_that_it_uses() {
        for (at, row) in KINDS.iter().enumerate() {
            assert_eq!(row.number as usize, at + 1);
            assert!(row.script.starts_with(row.name), "{row:?}");
            for words in [row.script, row.sentence] {
                assert_eq!(words.contains("OTHER"), row.other, "{row:?}");
                assert_eq!(words.contains("MODE"), row.mode != Takes::NoMode, "{row:?}");
                assert_eq!(words.contains(WITH_MODE), row.mode == Takes::Execute, "{row:?}");
                assert_eq!(words.contains("LEVEL"), row.class || row.needs, "{row:?}");
                assert_eq!(words.contains("COMPANIES"), row.companies, "{row:?}");
                assert_eq!(words.contains(UNDER_PARENT), row.parent, "{row:?}");
            }
        }
    }
}
