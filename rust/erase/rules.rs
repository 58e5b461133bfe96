//! The rules of `rules.txt`: how one is read, where it matches, and what it changes.
use super::file::File;
use super::tokens::Kind::{Open, Word};
use super::tokens::State;
use std::collections::BTreeMap;
use std::sync::LazyLock;

/// A rule with its case: a text that the rule changes, and what becomes of it. `⏎` stands for the end of a line in both.
pub struct Rule {
    pub line: &'static str,
    pub before: &'static str,
    pub after: &'static str,
    words: Vec<&'static str>,
    texts: Vec<&'static str>,
    is_element: bool,
    is_late: bool,
}

impl Rule {
    /// What is counted of it: the rule, or each of the words of which one has to stand at some place.
    pub fn uses(&self) -> Vec<String> {
        match self.words.iter().find(|it| is_choice(it)) {
            Some(words) => words.split('|').map(|word| format!("{} [{word}]", self.line)).collect(),
            None => vec![self.line.to_string()],
        }
    }
}

fn is_choice(word: &str) -> bool {
    word.len() > 2 && word.contains('|')
}

/// Reads the table: a rule begins its line, and the two lines of its case are indented.
pub static RULES: LazyLock<Vec<Rule>> = LazyLock::new(|| {
    let mut lines = super::RULES.lines().filter(|it| !it.is_empty() && !it.starts_with("##"));
    let mut out = Vec::new();
    while let Some(line) = lines.next() {
        let mut of_case =
            || lines.next().and_then(|it| it.strip_prefix("    ")).unwrap_or_else(|| panic!("rules.txt: a rule without its case: {line}"));
        let (before, after) = (of_case(), of_case());
        let (pattern, texts) = line.split_once(" ⟶ ").unwrap_or((line, ""));
        let is_element = pattern.starts_with(',');
        let words = pattern.split(' ').skip(usize::from(is_element)).collect();
        let is_late = pattern.starts_with("^^");
        out.push(Rule { line, before, after, words, texts: texts.split('|').collect(), is_element, is_late });
    }
    out
});

/// Where a rule matches: its parts in `«»`, the token behind it, and the word that was chosen.
pub struct Match {
    parts: Vec<(usize, usize)>,
    pub end: usize,
    chosen: Option<String>,
}

impl File<'_> {
    /// Matches the words of a pattern from a place on.
    pub fn matched(&self, at: usize, words: &[&str]) -> Option<Match> {
        let (mut at, mut begin) = (at, at);
        let mut out = Match { parts: Vec::new(), end: at, chosen: None };
        for word in words {
            match *word {
                "^" | "^^" if self.begins_line(at) => continue,
                "^" | "^^" => return None,
                "«»" => {
                    out.parts.push((at, at));
                    continue;
                }
                _ => {}
            }
            let (wanted, it) = (word.trim_matches(['«', '»']), self.all.get(at)?);
            if word.starts_with('«') {
                begin = at;
            }
            match wanted {
                "◌" if it.kind == Word => {}
                "◌◌" if it.kind == Word => {
                    while self.text(self.next(at)) == "::" {
                        at = self.next(self.next(at));
                    }
                }
                "(…)" | "{…}" | "[…]" if it.kind == Open && wanted.starts_with(&it.text) => at = it.mate,
                _ if it.text == wanted => {}
                _ if is_choice(wanted) && wanted.split('|').any(|word| word == it.text) => out.chosen = Some(it.text.clone()),
                _ => return None,
            }
            if word.ends_with('»') {
                out.parts.push((begin, at + 1));
            }
            at = self.next(at);
        }
        out.end = at;
        Some(out)
    }

    /// The place behind a pattern, if it stands at this place, otherwise this place.
    pub fn past(&self, at: usize, pattern: &str) -> usize {
        self.matched(at, &pattern.split(' ').collect::<Vec<_>>()).map_or(at, |it| it.end)
    }

    /// Applies the rules wherever they match: the late ones, or all others.
    pub fn apply_rules(&mut self, late: bool) {
        let all: Vec<usize> = (0..self.all.len()).filter(|&at| self.is_code(at)).collect();
        let mut places = BTreeMap::<String, Vec<usize>>::new();
        for &at in &all {
            places.entry(self.all[at].text.clone()).or_default().push(at);
        }
        let none = Vec::new();
        for rule in RULES.iter().filter(|it| it.is_late == late) {
            let first = rule.words.iter().find(|it| !matches!(**it, "^" | "^^" | "«»")).map_or("", |it| it.trim_matches(['«', '»']));
            for &at in if first.starts_with('◌') { &all } else { places.get(first).unwrap_or(&none) } {
                let Some(it) = self.matched(at, &rule.words).filter(|_| self.is_code(at)) else { continue };
                let name = it.chosen.as_ref().map_or(rule.line.to_string(), |word| format!("{} [{word}]", rule.line));
                if self.apply(rule, at, it) {
                    self.used.insert(name);
                }
            }
        }
    }

    /// Changes what a rule says. Returns whether it changed anything.
    fn apply(&mut self, rule: &Rule, at: usize, it: Match) -> bool {
        if rule.is_element {
            return self.take_element(at, it.end);
        }
        for (n, (from, to)) in it.parts.into_iter().enumerate() {
            let text = rule.texts.get(n).copied().unwrap_or("");
            if from == to {
                match self.previous(from).filter(|_| from > at) {
                    Some(before) => self.all[before].after.push_str(text),
                    None => self.all[from].before.push_str(text),
                }
            } else if to == from + 1 && !text.is_empty() {
                self.all[from].text = text.to_string();
            } else {
                if rule.words[0].starts_with('^') {
                    self.take(from, to)
                } else {
                    self.set(from, to, State::Gone)
                }
                self.all[from].before = text.to_string();
            }
        }
        true
    }

    /// Takes an element out of a list, with one comma, if it is one.
    fn take_element(&mut self, at: usize, end: usize) -> bool {
        let before = self.previous(at).unwrap_or(0);
        let last = self.previous(end).unwrap_or(at) + 1;
        let (from, to) = match (self.text(before), self.text(end)) {
            ("(" | "{" | "<" | ",", ",") => (at, end + 1),
            (",", ")" | "}" | ">") => (before, last),
            ("(" | "{" | "<", ")" | "}" | ">") => (at, last),
            _ => return false,
        };
        self.set(from, to, State::Gone);
        true
    }
}
