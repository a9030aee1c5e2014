//! The model of the questions, after `docs/FORMAT.md`: plain counts over the plain list.
use crate::library::Library;
use crate::readings::{documents, reading};
use crate::top_k::{greedy, probing, ranked, top_k_room, with_allowance};
use crate::weighted::{rarest_first, weigh};

/// A range: entries a to b, or terms first to last.
#[derive(Clone, Copy, Debug, PartialEq)]
pub enum Span {
    Entries(u32, u32),
    Terms(u32, u32),
}

/// A question with its arguments.
#[derive(Clone, Debug, PartialEq)]
pub enum Question {
    Read,
    Access { place: u32 },
    Rank { document: u32, place: u32 },
    RankSet { set: Vec<u32>, place: u32 },
    Select { document: u32, j: u32 },
    Quantile { span: Span, r: u32 },
    List { span: Span },
    Conjunction { terms: Vec<u32> },
    Boolean { question: Vec<u16> },
    RangeOfTerms { first: u32, last: u32 },
    RarestFirst { terms: Vec<u32> },
    Greedy { span: Span, k: u32, allowance: u32 },
    Probing { span: Span, k: u32 },
    Weighted { terms: Vec<u32>, k: u32, allowance: u32 },
}

/// How many numbers are lent in the first slice (answers, entries, or an order) and in the second (work, or term lengths).
#[derive(Clone, Copy, Debug)]
pub struct Lent {
    pub first: usize,
    pub second: usize,
}

/// Slices that are always long enough.
pub const ROOM: Lent = Lent { first: usize::MAX, second: usize::MAX };

/// An answer: the numbers that the header's out-parameters get, in its order, and the fronts of the two lent slices.
#[derive(Clone, Debug, Default, PartialEq)]
pub struct Answer {
    pub numbers: Vec<u32>,
    pub first: Vec<u32>,
    pub second: Vec<u32>,
}

pub type Pairs = Vec<(u32, u32)>;

/// A range: where it starts, and its entries.
#[derive(Clone, Copy)]
pub struct Part<'a> {
    pub start: usize,
    pub entries: &'a [u32],
}

/// What the library answers, or the number of the refusal: the lowest that applies, but 18 before 11 and 12, and 19 before
/// 11.
pub fn answer(library: &Library, question: &Question, lent: Lent) -> Result<Answer, u32> {
    match question {
        Question::Read => read(library, lent),
        Question::Access { place } => one(access(library, *place)),
        Question::Rank { document, place } => one(rank(library, *document, *place)),
        Question::RankSet { set, place } => one(rank_set(library, set, *place)),
        Question::Select { document, j } => one(select(library, *document, *j)),
        Question::Quantile { span, r } => one(quantile(library, *span, *r)),
        Question::List { span } => {
            let range = part(library, *span)?;
            enough(lent.first, 3 * library.documents as usize, 12)?;
            Ok(listed(&with_places(range, &listing(range.entries, library.documents))))
        }
        Question::Conjunction { terms } => {
            let found = conjunction(library, terms)?;
            enough(lent.first, 2 * library.documents as usize, 12)?;
            Ok(listed(&as_pairs(&found)))
        }
        Question::Boolean { question } => {
            let found = boolean(library, question)?;
            enough(lent.first, library.documents as usize, 12)?;
            Ok(singles(&found))
        }
        Question::RangeOfTerms { first, last } => {
            let (from, to) = term_range(library, *first, *last)?;
            Ok(Answer { numbers: vec![from as u32, to as u32], ..Answer::default() })
        }
        Question::RarestFirst { terms } => rarest_first(library, terms).map(order),
        Question::Greedy { span, k, allowance } => {
            let range = part(library, *span)?;
            top_k_room(library, 3, *k, lent)?;
            Ok(greedy(library, range, *k, *allowance))
        }
        Question::Probing { span, k } => {
            let range = part(library, *span)?;
            top_k_room(library, 3, *k, lent)?;
            Ok(probing(library, range, *k))
        }
        Question::Weighted { terms, k, allowance } => {
            let weighed = weigh(library, terms)?;
            top_k_room(library, 2, *k, lent)?;
            let full = ranked(weighed.listing(), *k);
            Ok(with_allowance(library, full, &weighed.nodes(), *allowance, as_pairs))
        }
    }
}

fn one(number: Result<u32, u32>) -> Result<Answer, u32> {
    number.map(|number| Answer { numbers: vec![number], ..Answer::default() })
}

/// The refusal, where too few numbers are lent.
pub fn enough(lent: usize, room: usize, refusal: u32) -> Result<(), u32> {
    if lent < room {
        return Err(refusal);
    }
    Ok(())
}

/// An answer of single numbers: how many, and these.
pub fn singles(found: &[u32]) -> Answer {
    Answer { numbers: vec![found.len() as u32], first: found.to_vec(), second: vec![] }
}

/// An order of terms: how many, and these in front of as many zeros as eight numbers have room for.
fn order(terms: Vec<u32>) -> Answer {
    let mut answer = singles(&terms);
    answer.first.resize(8, 0);
    answer
}

/// The numbers of each document: itself, and its count or score.
pub fn as_pairs(pairs: &[(u32, u32)]) -> Vec<Vec<u32>> {
    pairs.iter().map(|pair| vec![pair.0, pair.1]).collect()
}

/// The numbers of each document of a range: itself, its count, and the first place of the range with it, counted from entry 0 of the list.
pub fn with_places(range: Part, pairs: &[(u32, u32)]) -> Vec<Vec<u32>> {
    let place = |document: u32| range.start + range.entries.iter().position(|entry| *entry == document).unwrap();
    pairs.iter().map(|pair| vec![pair.0, pair.1, place(pair.0) as u32]).collect()
}

/// An answer of several numbers a document: how many documents, and these one after the other.
pub fn listed(documents: &[Vec<u32>]) -> Answer {
    Answer { numbers: vec![documents.len() as u32], first: documents.concat(), second: vec![] }
}

fn read(library: &Library, lent: Lent) -> Result<Answer, u32> {
    enough(lent.first, library.entries.len(), 12)?;
    enough(lent.second, library.lengths.len(), 12)?;
    Ok(Answer {
        numbers: vec![library.entries.len() as u32, library.documents, library.lengths.len() as u32],
        first: library.entries.clone(),
        second: library.lengths.clone(),
    })
}

fn access(library: &Library, place: u32) -> Result<u32, u32> {
    library.entries.get(place as usize).copied().ok_or(11)
}

fn rank(library: &Library, document: u32, place: u32) -> Result<u32, u32> {
    if document >= library.documents || place as usize > library.entries.len() {
        return Err(11);
    }
    let before = &library.entries[..place as usize];
    Ok(before.iter().filter(|entry| **entry == document).count() as u32)
}

/// How many entries before a place are in the set.
fn rank_set(library: &Library, set: &[u32], place: u32) -> Result<u32, u32> {
    if set.len() > 64 || set.windows(2).any(|two| two[0] >= two[1]) {
        return Err(19);
    }
    if set.iter().any(|document| *document >= library.documents) || place as usize > library.entries.len() {
        return Err(11);
    }
    let before = &library.entries[..place as usize];
    Ok(before.iter().filter(|entry| set.contains(entry)).count() as u32)
}

/// n where the document has fewer than j entries.
fn select(library: &Library, document: u32, j: u32) -> Result<u32, u32> {
    if document >= library.documents || j == 0 {
        return Err(11);
    }
    let mut places = (0..).zip(&library.entries).filter(|(_, entry)| **entry == document);
    Ok(places.nth(j as usize - 1).map_or(library.entries.len() as u32, |(place, _)| place))
}

fn quantile(library: &Library, span: Span, r: u32) -> Result<u32, u32> {
    let mut sorted = part(library, span)?.entries.to_vec();
    sorted.sort();
    sorted.get(r as usize).copied().ok_or(11)
}

/// Where the terms first to last start and end.
fn term_range(library: &Library, first: u32, last: u32) -> Result<(usize, usize), u32> {
    if first > last || last as usize >= library.lengths.len() {
        return Err(11);
    }
    let before = |term: usize| library.lengths[..term].iter().sum::<u32>() as usize;
    Ok((before(first as usize), before(last as usize + 1)))
}

/// A range of the library's entries.
pub fn part(library: &Library, span: Span) -> Result<Part<'_>, u32> {
    let (a, b) = match span {
        Span::Entries(a, b) => (a as usize, b as usize),
        Span::Terms(first, last) => term_range(library, first, last)?,
    };
    if a > b || b > library.entries.len() {
        return Err(11);
    }
    Ok(Part { start: a, entries: &library.entries[a..b] })
}

/// The count of each number below `size` in the range.
pub fn counts(range: &[u32], size: u32) -> Vec<u32> {
    let mut counts = vec![0; size as usize];
    for entry in range {
        counts[*entry as usize] += 1;
    }
    counts
}

/// Every document of the range once, ascending, with its count.
pub fn listing(range: &[u32], documents: u32) -> Pairs {
    (0..documents).zip(counts(range, documents)).filter(|pair| pair.1 > 0).collect()
}

/// The library's terms that are among the given ones, so each once; or the refusal, for which all that are given count.
pub fn chosen(library: &Library, given: &[u32]) -> Result<Vec<u32>, u32> {
    if given.is_empty() || given.len() > 8 {
        return Err(10);
    }
    let terms = 0..library.lengths.len() as u32;
    if given.iter().any(|term| !terms.contains(term)) {
        return Err(11);
    }
    Ok(terms.filter(|term| given.contains(term)).collect())
}

fn conjunction(library: &Library, given: &[u32]) -> Result<Pairs, u32> {
    let mut under_each = Vec::new();
    for term in chosen(library, given)? {
        let range = part(library, Span::Terms(term, term))?;
        under_each.push(counts(range.entries, library.documents));
    }
    let of = |document: u32| under_each.iter().map(move |counts| counts[document as usize]);
    Ok((0..library.documents)
        .filter(|document| of(*document).all(|count| count > 0))
        .map(|document| (document, of(document).sum()))
        .collect())
}

/// The documents that match a question with and, or, not, ascending.
fn boolean(library: &Library, question: &[u16]) -> Result<Vec<u32>, u32> {
    let tree = reading(question).ok_or(18u32)?;
    let terms = library.lengths.len();
    if question.iter().any(|number| *number < 4_096 && usize::from(*number) >= terms) {
        return Err(11);
    }
    Ok(documents(library, &tree).into_iter().collect())
}

/// The rate: of 0 to 1,000 the number nearest to the quotient, and of two equally near the even one.
pub fn per_mille(count: u32, size: u32) -> Result<u32, u32> {
    if size == 0 || count > size {
        return Err(11);
    }
    let (count, size) = (u64::from(count), u64::from(size));
    let distance = |rate: u32| (u64::from(rate) * size).abs_diff(count * 1_000);
    Ok((0..=1_000).min_by_key(|&rate| (distance(rate), rate % 2)).unwrap())
}
