//! Paths of the one crate, and the refusal of what is left and not known.
use super::file::File;
use super::tokens::Kind::Word;
use super::{ATTRIBUTES, BEFORE_NOT, GONE, MACROS, METHODS, Outcome, has};

impl File<'_> {
    /// Names the crates' paths from the root of the one crate, and std's from what stands for it.
    pub fn change_paths(&mut self) {
        for at in 0..self.all.len() {
            if !self.is_code(at) || self.text(self.next(at)) != "::" || self.previous(at).is_some_and(|at| self.text(at) == "::") {
                continue;
            }
            self.all[at].text = match self.text(at) {
                "std" => "crate::rattle".into(),
                "crate" => format!("crate::{}", self.own),
                text if self.crates.contains(&text) => format!("crate::{text}"),
                _ => continue,
            };
        }
    }

    /// Whether a list has a word, which then counts as used.
    pub fn knows(&mut self, kind: &str, list: &str, word: &str) -> bool {
        let knows = has(list, word);
        if knows {
            self.used.insert(format!("{kind} {word}"));
        }
        knows
    }

    /// Refuses what is left and not known.
    pub fn only_known(&mut self) -> Outcome<()> {
        for at in 0..self.all.len() {
            if self.is_code(at)
                && let Some(why) = self.unknown(at)
            {
                return self.refuse(at, why);
            }
        }
        Ok(())
    }

    /// Why a token is not known, if it is not: an attribute, a macro, a method of std, or a word that has to be gone.
    fn unknown(&mut self, at: usize) -> Option<&'static str> {
        let (text, next) = (self.text(at).to_string(), self.next(at));
        let before = self.previous(at).map_or("", |at| self.text(at)).to_string();
        let is_word = self.all[at].kind == Word;
        let calls = self.text(next) == "(" || self.text(next) == "::" && self.text(self.next(next)) == "<";
        // A contract between a word and a `!` begins a body: the `!` then is a negation.
        let has_mark = is_word && self.text(next) == "!" && self.all[at].after.is_empty();
        if text == "#" {
            let end = self.all.get(next).map_or(0, |it| it.mate.min(self.all.len()));
            let words = (next..end).filter(|&at| self.is_code(at) && self.all[at].kind == Word);
            let words: Vec<String> = words.map(|at| self.text(at).to_string()).collect();
            let known = words.iter().all(|it| self.knows("attribute", ATTRIBUTES, it));
            return (!known).then_some("an attribute that is not known");
        }
        if text == "alloc" && before == "::" && self.text(next) == "::" {
            return None;
        }
        if has(GONE, &text) || !text.is_ascii() && !text.starts_with('"') {
            return Some("what should be gone is left");
        }
        if has_mark && !self.knows("negated behind", BEFORE_NOT, &text) && !self.knows("macro", MACROS, &text) {
            return Some("a macro that is not known");
        }
        let is_method = is_word && before == "." && calls && !self.names.contains(&format!("fn {text}"));
        (is_method && !self.knows("method", METHODS, &text)).then_some("a method of std that is not known")
    }
}
