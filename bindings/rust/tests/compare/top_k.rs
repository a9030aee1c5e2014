//! The model of top-k, after `docs/FORMAT.md`: all documents sorted, and the need of an allowance by its definition.
use crate::library::{height, Library};
use crate::questions::{counts, enough, listed, listing, with_places, Answer, Lent, Pairs, Part};

/// The refusal, where too few numbers are lent for an answer of so many a document.
pub fn top_k_room(library: &Library, numbers: usize, k: u32, lent: Lent) -> Result<(), u32> {
    enough(lent.first, numbers * k.min(library.documents) as usize, 12)?;
    enough(lent.second, 4 * library.documents as usize, 13)
}

/// After top-k the first 4 × N numbers of the work slice are 0.
fn with_work(found: Answer, library: &Library) -> Answer {
    Answer { second: vec![0; 4 * library.documents as usize], ..found }
}

/// The first k documents of the range by larger count, then lower number.
fn full_list(range: &[u32], documents: u32, k: u32) -> Pairs {
    ranked(listing(range, documents), k)
}

/// The first k of these documents by larger count or score, then lower number.
pub fn ranked(mut ranking: Pairs, k: u32) -> Pairs {
    ranking.sort_by(|x, y| y.1.cmp(&x.1).then(x.0.cmp(&y.0)));
    ranking.truncate(k as usize);
    ranking
}

/// The nodes of two or more numbers: start and count of each.
fn nodes(range: &[u32], documents: u32) -> Pairs {
    let h = height(documents);
    let counts = counts(range, 1 << h);
    let mut nodes = Vec::new();
    for depth in 0..h {
        let size = 1 << (h - depth);
        for (i, node) in counts.chunks(size).enumerate() {
            nodes.push(((i * size) as u32, node.iter().sum()));
        }
    }
    nodes
}

/// The need of a front part of the full list.
fn need(nodes: &[(u32, u32)], front: &[(u32, u32)]) -> u32 {
    let Some((last, last_count)) = front.last() else {
        return 0;
    };
    let counts = |node: &&(u32, u32)| {
        let (start, count) = **node;
        count > *last_count || count == *last_count && start <= *last
    };
    nodes.iter().filter(counts).count() as u32
}

/// The whole answer, by larger count.
pub fn probing(library: &Library, range: Part, k: u32) -> Answer {
    with_work(listed(&with_places(range, &full_list(range.entries, library.documents, k))), library)
}

pub fn greedy(library: &Library, range: Part, k: u32, allowance: u32) -> Answer {
    let full = full_list(range.entries, library.documents, k);
    let nodes = nodes(range.entries, library.documents);
    with_allowance(library, full, &nodes, allowance, |front| with_places(range, front))
}

/// 'Done' with the full list and its need, or 'spent' with the longest front part that the allowance covers; `numbers` gives those of each
/// document.
pub fn with_allowance(
    library: &Library,
    mut full: Pairs,
    nodes: &[(u32, u32)],
    allowance: u32,
    numbers: impl FnOnce(&[(u32, u32)]) -> Vec<Vec<u32>>,
) -> Answer {
    let needed = need(nodes, &full);
    let (spent, number) = if needed <= allowance {
        (0, needed)
    } else {
        let covered = |front: &usize| need(nodes, &full[..*front]) <= allowance;
        let front = (0..full.len()).rev().find(covered).unwrap();
        full.truncate(front);
        (1, allowance)
    };
    let mut found = listed(&numbers(&full));
    found.numbers.extend([spent, number]);
    with_work(found, library)
}
