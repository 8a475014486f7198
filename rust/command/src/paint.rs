//! Colours, for terminals and for those who ask.

use std::env;
use std::io::IsTerminal;

#[derive(Clone, Copy, Debug, Default, PartialEq, Eq)]
pub enum When {
    #[default]
    Auto,
    Always,
    Never,
}

/// How what is written to one of the outputs is coloured.
#[derive(Clone, Copy, Debug)]
pub struct Paint {
    is_on: bool,
}

/// Whether a terminal is not known to obey escape sequences.
pub fn is_dumb() -> bool {
    env::var_os("TERM").is_none_or(|term| term.is_empty() || term == "dumb")
}

impl Paint {
    /// By itself colour is for terminals only, and not where NO_COLOR or a dumb terminal says that it is not wanted.
    pub fn new(when: When, output: &impl IsTerminal) -> Self {
        let is_unwanted =
            || env::var_os("NO_COLOR").is_some_and(|value| !value.is_empty()) || is_dumb();
        let is_on = match when {
            When::Auto => output.is_terminal() && !is_unwanted(),
            When::Always => true,
            When::Never => false,
        };
        Self { is_on }
    }

    fn with(self, code: &str, text: &str) -> String {
        if self.is_on && !text.is_empty() {
            format!("\x1b[{code}m{text}\x1b[0m")
        } else {
            text.into()
        }
    }

    pub fn strong(self, text: &str) -> String {
        self.with("1", text)
    }

    pub fn alarm(self, text: &str) -> String {
        self.with("1;31", text)
    }

    pub fn frame(self, text: &str) -> String {
        self.with("34", text)
    }

    pub fn advice(self, text: &str) -> String {
        self.with("36", text)
    }
}
