//! What a call prints and returns.

pub const FINE: u8 = 0;
/// a refused table, image or load, an object without a page, two images that differ, or gets whose order matters
pub const REFUSED: u8 = 1;
/// usage, or input that cannot be read
pub const TROUBLE: u8 = 2;

pub struct Outcome {
    pub out: Vec<u8>,
    pub err: String,
    pub status: u8,
}

impl Outcome {
    pub fn fine(out: impl Into<Vec<u8>>) -> Outcome {
        Outcome { out: out.into(), err: String::new(), status: FINE }
    }

    pub fn failed(status: u8, err: String) -> Outcome {
        Outcome { out: Vec::new(), err, status }
    }

    /// With further lines behind what it says.
    pub fn with(mut self, line: &str) -> Outcome {
        self.err.push_str(line);
        self
    }
}

/// A call that has its outcome before its end: bad usage or bad input.
pub type Step<T> = Result<T, Outcome>;

pub fn trouble(err: String) -> Outcome {
    Outcome::failed(TROUBLE, err)
}

/// What is refused by the library.
pub fn refused(err: String) -> Outcome {
    Outcome::failed(REFUSED, err)
}

/// Words of the command line that the subcommand does not take.
pub fn bad_usage(name: &str, message: String) -> Outcome {
    trouble(format!("circtool {name}: {message}; see 'circtool {name} --help'\n"))
}
