//! Questions put through the crate: in vectors of its own, and in slices that we lend.
use crate::questions::{singles, Answer, Question, Span};
use masuvelior::{Archive, Counted, Ended, Matched, Over, Refusal, Scored};

/// Slices to lend, full of numbers that differ from each other.
#[derive(Clone, Debug, PartialEq)]
pub struct Scratch {
    pub first: Vec<u32>,
    pub second: Vec<u32>,
}

impl Scratch {
    /// So many numbers in each.
    pub fn new(first: usize, second: usize) -> Scratch {
        let junk = |from: u32, length: usize| (from..).take(length).collect();
        Scratch { first: junk(0xA5A5_0000, first), second: junk(0x5A5A_0000, second) }
    }

    /// What must be in them after this answer: its fronts, and the rest as it was; all as it was after a refusal.
    pub fn after(&self, answer: &Result<Answer, u32>) -> Scratch {
        let mut after = self.clone();
        if let Ok(answer) = answer {
            after.first[..answer.first.len()].copy_from_slice(&answer.first);
            after.second[..answer.second.len()].copy_from_slice(&answer.second);
        }
        after
    }
}

pub fn over(span: Span) -> Over {
    match span {
        Span::Entries(a, b) => Over::Entries(a..b),
        Span::Terms(first, last) => Over::Terms(first..=last),
    }
}

/// The question through the crate, in vectors of its own. The work slice is not seen.
pub fn whole(archive: &Archive, question: &Question) -> Result<Answer, u32> {
    let answer = match question {
        Question::Read => {
            let (first, second) = archive.read();
            return Ok(Answer {
                numbers: vec![archive.entries(), archive.documents(), archive.terms()],
                first,
                second,
            });
        }
        Question::Greedy { span, k, allowance } => {
            archive.greedy(over(*span), *k, *allowance).map(|(found, ended)| with_end(&found, ended))
        }
        Question::Weighted { terms, k, allowance } => {
            archive.weighted(terms, *k, *allowance).map(|(found, ended)| with_end(&found, ended))
        }
        Question::Probing { span, k } => archive.probing(over(*span), *k).map(|found| listed(&found)),
        Question::List { span } => archive.list(over(*span)).map(|found| listed(&found)),
        Question::Conjunction { terms } => archive.conjunction(terms).map(|found| listed(&found)),
        Question::Boolean { question } => archive.boolean(question).map(|found| singles(&found)),
        Question::RarestFirst { terms } => archive.rarest_first(terms).map(|found| singles(&found)),
        _ => numbers(archive, question),
    };
    answer.map_err(Refusal::number)
}

/// The question through the crate, in the slices of `scratch`.
pub fn lent(archive: &Archive, question: &Question, scratch: &mut Scratch) -> Result<Answer, u32> {
    if *question == Question::Read {
        let read = archive.read_into(&mut scratch.first, &mut scratch.second);
        return read.map_err(Refusal::number).map(|()| Answer {
            numbers: vec![archive.entries(), archive.documents(), archive.terms()],
            first: scratch.first[..archive.entries() as usize].to_vec(),
            second: scratch.second[..archive.terms() as usize].to_vec(),
        });
    }
    let work = &mut scratch.second;
    let answer = match question {
        Question::Weighted { terms, k, allowance } => in_documents::<Scored>(&mut scratch.first, |lent| {
            archive.weighted_into(terms, *k, *allowance, lent, work).map(|(found, ended)| with_end(found, ended))
        }),
        Question::Conjunction { terms } => {
            in_documents::<Matched>(&mut scratch.first, |lent| archive.conjunction_into(terms, lent).map(listed))
        }
        Question::Boolean { question } => archive.boolean_into(question, &mut scratch.first).map(singles),
        Question::RarestFirst { terms } => archive.rarest_first_into(terms, eight(&mut scratch.first)).map(singles),
        Question::List { .. } | Question::Greedy { .. } | Question::Probing { .. } => {
            in_documents::<Counted>(&mut scratch.first, |lent| counted(archive, question, lent, work))
        }
        _ => numbers(archive, question),
    };
    answer.map_err(Refusal::number)
}

/// What the crate lists for a document, by its tuple.
trait Listed: Copy {
    /// How many numbers it is.
    const NUMBERS: usize;
    fn of(numbers: &[u32]) -> Self;
    fn numbers(self) -> Vec<u32>;
}

impl Listed for Counted {
    const NUMBERS: usize = 3;
    fn of(numbers: &[u32]) -> Counted {
        Counted::from((numbers[0], numbers[1], numbers[2]))
    }
    fn numbers(self) -> Vec<u32> {
        let (document, count, place) = self.into();
        vec![document, count, place]
    }
}

/// Of two numbers.
macro_rules! listed_as_pair {
    ($pair:ident) => {
        impl Listed for $pair {
            const NUMBERS: usize = 2;
            fn of(numbers: &[u32]) -> $pair {
                $pair::from((numbers[0], numbers[1]))
            }
            fn numbers(self) -> Vec<u32> {
                let (document, number) = self.into();
                vec![document, number]
            }
        }
    };
}

listed_as_pair!(Matched);
listed_as_pair!(Scored);

/// Asks with documents made of the lent numbers; what they are afterwards are the numbers again.
fn in_documents<L: Listed>(
    numbers: &mut Vec<u32>,
    ask: impl FnOnce(&mut [L]) -> Result<Answer, Refusal>,
) -> Result<Answer, Refusal> {
    let mut lent: Vec<L> = numbers.chunks_exact(L::NUMBERS).map(L::of).collect();
    let answer = ask(&mut lent);
    *numbers = flat(&lent);
    answer
}

/// Documents of a range, with their counts and places.
fn counted(archive: &Archive, question: &Question, lent: &mut [Counted], work: &mut [u32]) -> Result<Answer, Refusal> {
    match question {
        Question::List { span } => archive.list_into(over(*span), lent).map(listed),
        Question::Greedy { span, k, allowance } => {
            archive.greedy_into(over(*span), *k, *allowance, lent, work).map(|(found, ended)| with_end(found, ended))
        }
        Question::Probing { span, k } => archive.probing_into(over(*span), *k, lent, work).map(listed),
        _ => unreachable!("not of a range's documents: {question:?}"),
    }
}

/// Questions of one or two numbers.
fn numbers(archive: &Archive, question: &Question) -> Result<Answer, Refusal> {
    let numbers = match *question {
        Question::Access { place } => vec![archive.access(place)?],
        Question::Rank { document, place } => vec![archive.rank(document, place)?],
        Question::RankSet { ref set, place } => vec![archive.rank_set(set, place)?],
        Question::Select { document, j } => vec![archive.select(document, j)?],
        Question::Quantile { span, r } => vec![archive.quantile(over(span), r)?],
        Question::RangeOfTerms { first, last } => {
            let range = archive.range_of_terms(first..=last)?;
            vec![range.start, range.end]
        }
        _ => unreachable!("not of numbers: {question:?}"),
    };
    Ok(Answer { numbers, ..Answer::default() })
}

fn flat<L: Listed>(found: &[L]) -> Vec<u32> {
    found.iter().flat_map(|listed| listed.numbers()).collect()
}

/// The room of an order: the first eight of the lent numbers.
pub fn eight(lent: &mut [u32]) -> &mut [u32; 8] {
    (&mut lent[..8]).try_into().unwrap()
}

fn listed<L: Listed>(found: &[L]) -> Answer {
    Answer { numbers: vec![found.len() as u32], first: flat(found), second: vec![] }
}

fn with_end<L: Listed>(found: &[L], ended: Ended) -> Answer {
    let mut answer = listed(found);
    answer.numbers.extend(match ended {
        Ended::Done { openings } => [0, openings],
        Ended::Spent { allowance } => [1, allowance],
    });
    answer
}
