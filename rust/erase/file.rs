//! The tokens of a file while they are being changed, and how to move among those that are left.
use super::tokens::Kind::*;
use super::tokens::{Kind, State, Token};
use super::{Names, Outcome, Used, refuse};

pub struct File<'a> {
    /// The crate of the file, and all crates.
    pub own: &'a str,
    pub crates: &'a [&'a str],
    pub names: &'a Names,
    pub used: &'a mut Used,
    pub all: Vec<Token>,
}

impl File<'_> {
    /// Whether a token is code that is left.
    pub fn is_code(&self, at: usize) -> bool {
        self.all[at].state == State::Stays && matches!(self.all[at].kind, Word | Other | Open)
    }

    /// The first token of code from a place on, or the number of tokens.
    pub fn code_from(&self, at: usize) -> usize {
        (at..self.all.len()).find(|&at| self.is_code(at)).unwrap_or(self.all.len())
    }

    /// The token of code behind one.
    pub fn next(&self, at: usize) -> usize {
        self.code_from(at + 1)
    }

    /// The token of code before one.
    pub fn previous(&self, at: usize) -> Option<usize> {
        (0..at).rev().find(|&at| self.is_code(at))
    }

    pub fn text(&self, at: usize) -> &str {
        self.all.get(at).map_or("", |it| it.text.as_str())
    }

    pub fn refuse<T>(&self, at: usize, why: &str) -> Outcome<T> {
        let line = self.all.get(at).or(self.all.last()).map_or(0, |it| it.line);
        refuse(line, format!("{why} (`{}`)", self.text(at)))
    }

    pub fn set(&mut self, from: usize, to: usize, state: State) {
        for it in &mut self.all[from..to] {
            it.state = state;
            it.before.clear();
        }
    }

    /// Takes code out, and the docs right above it.
    pub fn take(&mut self, from: usize, to: usize) {
        self.set(self.comments_above(from, Doc), to, State::Gone);
    }

    pub fn begins_line(&self, at: usize) -> bool {
        let mut back = (0..at).rev().skip_while(|&at| self.all[at].kind == Space);
        back.next().is_none_or(|at| self.all[at].kind == Newline)
    }

    /// The first of the comments of a kind that stand right above a place, with no empty line between.
    pub fn comments_above(&self, at: usize, kind: Kind) -> usize {
        let (mut start, mut ends) = (at, 0);
        for back in (0..at).rev() {
            match self.all[back].kind {
                Newline if ends == 0 => ends = 1,
                Space => {}
                it if it == kind => (start, ends) = (back, 0),
                _ => break,
            }
        }
        start
    }

    /// The lines of a range as they stand, less the indent of the first.
    pub fn lines(&self, from: usize, to: usize) -> String {
        let indent = " ".repeat((0..from).rev().take_while(|&at| self.all[at].kind == Space).map(|at| self.all[at].text.len()).sum());
        let text: String = self.all[from..to].iter().map(|it| it.text.as_str()).collect();
        text.replace(&format!("\n{indent}"), "\n")
    }
}
