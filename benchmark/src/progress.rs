//! A line on standard error that says where the program is.

/// The line.
#[derive(Default)]
pub struct Progress {
    /// What is being done.
    part: String,
    /// The length of what was written last, which the next line covers.
    written: usize,
}

impl Progress {
    /// Begins a part.
    pub fn begin(&mut self, part: &str) {
        self.part = part.to_string();
        self.tell("tapes");
    }

    /// Says where in the part the program is.
    pub fn tell(&mut self, place: &str) {
        let line = format!("{}: {place}", self.part);
        eprint!("\r{line:<width$}", width = self.written);
        self.written = line.chars().count();
    }

    /// Takes the line away.
    pub fn end(&mut self) {
        eprint!("\r{:<width$}\r", "", width = self.written);
        self.written = 0;
    }
}
