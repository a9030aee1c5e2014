//! The model of questions with and, or, not: a question's readings by every way to split it, and the documents of a reading as sets.
use crate::library::Library;
use crate::questions::{part, Span};
use masuvelior::marks::{AND, CLOSE, NOT, OPEN, OR};
use std::collections::BTreeSet;

/// What a question is read as.
#[derive(Clone, Debug, PartialEq, Eq, Hash)]
pub enum Tree {
    Term(u16),
    Not(Box<Tree>),
    And(Box<Tree>, Box<Tree>),
    Or(Box<Tree>, Box<Tree>),
}

/// What is read, from the loosest.
#[derive(Clone, Copy)]
enum Level {
    Disjunction,
    Conjunction,
    Negation,
}

/// A part of the question read, and how many brackets are open at once in it.
type Readings = Vec<(Tree, usize)>;

/// The readings of the parts of a question, each looked for once: by level, start and end.
struct Reader<'a> {
    question: &'a [u16],
    known: [Vec<Vec<Option<Readings>>>; 3],
}

impl Reader<'_> {
    /// Every reading of the numbers from one place up to another.
    fn readings(&mut self, from: usize, to: usize, level: Level) -> Readings {
        if from >= to {
            return vec![];
        }
        if let Some(known) = &self.known[level as usize][from][to] {
            return known.clone();
        }
        let all = match level {
            Level::Disjunction => self.split(from, to, OR, level, Level::Conjunction, Tree::Or),
            Level::Conjunction => self.split(from, to, AND, level, Level::Negation, Tree::And),
            Level::Negation => self.operand(from, to),
        };
        self.known[level as usize][from][to] = Some(all.clone());
        all
    }

    /// Without the mark, or with it at any place: what is before it is of this level again, so that equal marks group to the left.
    fn split(
        &mut self,
        from: usize,
        to: usize,
        mark: u16,
        level: Level,
        tighter: Level,
        joined: fn(Box<Tree>, Box<Tree>) -> Tree,
    ) -> Readings {
        let mut all = self.readings(from, to, tighter);
        for place in (from..to).filter(|place| self.question[*place] == mark) {
            let after = self.readings(place + 1, to, tighter);
            if after.is_empty() {
                continue;
            }
            for (first, deep) in self.readings(from, place, level) {
                for (second, other) in &after {
                    all.push((joined(first.clone().into(), second.clone().into()), deep.max(*other)));
                }
            }
        }
        all
    }

    /// A term, a bracket, or 'not' before either.
    fn operand(&mut self, from: usize, to: usize) -> Readings {
        let (first, last) = (self.question[from], self.question[to - 1]);
        let mut all = vec![];
        if first < 4_096 && from + 1 == to {
            all.push((Tree::Term(first), 0));
        }
        if first == NOT {
            let denied = self.readings(from + 1, to, Level::Negation);
            all.extend(denied.into_iter().map(|(tree, deep)| (Tree::Not(tree.into()), deep)));
        }
        if first == OPEN && last == CLOSE {
            let inside = self.readings(from + 1, to - 1, Level::Disjunction);
            all.extend(inside.into_iter().map(|(tree, deep)| (tree, deep + 1)));
        }
        all
    }
}

/// Every reading of some numbers, however many they are, with the brackets that are open at once.
pub fn readings(question: &[u16]) -> Vec<(Tree, usize)> {
    let size = question.len() + 1;
    let mut reader = Reader { question, known: [(); 3].map(|()| vec![vec![None; size]; size]) };
    reader.readings(0, question.len(), Level::Disjunction)
}

/// The only reading of a question of at most 64 numbers and eight brackets, if it has one.
pub fn reading(question: &[u16]) -> Option<Tree> {
    if question.len() > 64 {
        return None;
    }
    let mut all = readings(question);
    assert!(all.len() <= 1, "{question:?} has several readings: {all:?}");
    all.pop().filter(|(_, deep)| *deep <= 8).map(|(tree, _)| tree)
}

/// The documents of a tree whose terms are the library's.
pub fn documents(library: &Library, tree: &Tree) -> BTreeSet<u32> {
    match tree {
        Tree::Term(term) => {
            let term = u32::from(*term);
            part(library, Span::Terms(term, term)).unwrap().entries.iter().copied().collect()
        }
        Tree::Not(denied) => &(0..library.documents).collect() - &documents(library, denied),
        Tree::And(first, second) => &documents(library, first) & &documents(library, second),
        Tree::Or(first, second) => &documents(library, first) | &documents(library, second),
    }
}
