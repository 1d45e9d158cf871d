//! Colour for terminals. Colour never carries what the words do not say.

#[derive(Clone, Copy)]
pub struct Paint {
    on: bool,
}

impl Paint {
    pub const PLAIN: Paint = Paint { on: false };
    pub const COLOURED: Paint = Paint { on: true };

    /// Colour exactly where standard output is a terminal and NO_COLOR is not set, or is empty.
    pub fn for_standard_output() -> Paint {
        use std::io::IsTerminal;
        let wanted = std::env::var_os("NO_COLOR").is_none_or(|it| it.is_empty());
        Paint { on: wanted && std::io::stdout().is_terminal() }
    }

    fn paint(self, code: &str, text: &str) -> String {
        if self.on {
            format!("\x1b[{code}m{text}\x1b[0m")
        } else {
            text.to_string()
        }
    }

    pub fn heading(self, text: &str) -> String {
        self.paint("1", text)
    }

    /// An absent label.
    pub fn warning(self, text: &str) -> String {
        self.paint("1;31", text)
    }

    /// A refusal.
    pub fn refusal(self, text: &str) -> String {
        self.paint("31", text)
    }
}
