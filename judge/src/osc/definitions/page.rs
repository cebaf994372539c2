//! A file of closed equations: what a definition is asked on the left, what the Rust answered on the right.

use super::term::list;

/// Questions with their answers; a question may be a list of many.
pub(super) struct Row {
    question: String,
    answer: String,
    answers: usize,
}

pub(super) fn row(question: String, answer: String) -> Row {
    Row { question, answer, answers: 1 }
}

/// A question whose answer is a list of answers.
pub(super) fn rows(question: String, answers: &[String]) -> Row {
    Row { question, answer: list(answers), answers: answers.len() }
}

/// Rows to an equation, at most.
const ROWS: usize = 100;

/// What a page imports, and on its last line the definitions that it computes with.
const USES: &str = include_str!("uses.txt");

pub(super) struct Page {
    pub(super) name: &'static str,
    defined: String,
    equations: Vec<(String, Vec<Row>)>,
}

impl Page {
    pub(super) fn new(name: &'static str) -> Self {
        Self { name, defined: String::new(), equations: Vec::new() }
    }

    /// A name for a value that many rows use.
    pub(super) fn define(&mut self, name: &str, of_type: &str, value: &str) {
        self.defined.push_str(&format!("abbrev {name} : {of_type}\n{name} = {value}\n\n"));
    }

    /// Equations about one definition.
    pub(super) fn about(&mut self, name: &str, rows: impl IntoIterator<Item = Row>) {
        let mut rows = rows.into_iter().peekable();
        for n in 0.. {
            if rows.peek().is_none() {
                break;
            }
            self.equations.push((format!("{name}_{n}"), rows.by_ref().take(ROWS).collect()));
        }
    }

    pub(super) fn answers(&self) -> usize {
        self.equations.iter().flat_map(|(_, rows)| rows).map(|row| row.answers).sum()
    }

    pub(super) fn equations(&self) -> usize {
        self.equations.len()
    }

    /// Puts one answer of each equation in another's place; says how many are wrong now.
    pub(super) fn spoil(&mut self) -> usize {
        let mut spoiled = 0;
        for (_, rows) in &mut self.equations {
            if let Some(n) = (1..rows.len()).find(|&n| rows[n].answer != rows[0].answer) {
                rows[n].answer = rows[0].answer.clone();
                spoiled += 1;
            }
        }
        spoiled
    }

    pub(super) fn text(&self) -> String {
        let (uses, unfolding) = USES.split_once("\nunfolding ").expect("the line of definitions");
        let mut out = format!("{uses}\n{}", self.defined);
        for (name, rows) in &self.equations {
            let questions = list(rows.iter().map(|row| &row.question));
            let answers = list(rows.iter().map(|row| &row.answer));
            out.push_str(&format!(
                "{name} : ({questions})\n    ≡ ({answers})\nunfolding {}\n{name} = refl\n\n",
                unfolding.trim()
            ));
        }
        out
    }
}
