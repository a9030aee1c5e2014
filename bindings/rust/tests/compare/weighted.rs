//! The model of the weighted search, after `docs/FORMAT.md`: weights by trying, scores by counting, and all nodes one after the other. And
//! the order of its terms, by taking the rarest away again and again.
use crate::library::{height, Library};
use crate::questions::{chosen, counts, part, Pairs, Span};

/// What a term weighs that df of the documents have: the largest g with 2^g × df^4 at most N^4, or 0 where df is 0.
pub fn weight(documents: u32, df: u32) -> u32 {
    if df == 0 {
        return 0;
    }
    let fourth = |x: u32| u128::from(x).pow(4);
    let fits = |g: &u32| (1 << g) * fourth(df) <= fourth(documents);
    (0..64).filter(fits).max().unwrap()
}

/// The given terms, each once, the one with the fewest entries first, of those with as many the lower number; or the refusal.
pub fn rarest_first(library: &Library, given: &[u32]) -> Result<Vec<u32>, u32> {
    let mut left = Vec::new(); // with how many entries each has; ascending by number
    for term in chosen(library, given)? {
        left.push((term, part(library, Span::Terms(term, term))?.entries.len()));
    }
    let mut order = Vec::new();
    while let Some(fewest) = left.iter().map(|of| of.1).min() {
        let rarest = left.iter().position(|of| of.1 == fewest).unwrap();
        order.push(left.remove(rarest).0);
    }
    Ok(order)
}

/// Of each number below 2^h, its score under some terms, and how many entries it has there.
pub struct Weighed(Vec<(u32, u32)>);

/// Weighs the given terms, each once, or refuses them.
pub fn weigh(library: &Library, given: &[u32]) -> Result<Weighed, u32> {
    let terms = chosen(library, given)?;
    let size = 1 << height(library.documents);
    let mut weighed = vec![(0, 0); size as usize];
    for term in terms {
        let counts = counts(part(library, Span::Terms(term, term))?.entries, size);
        let df = counts.iter().filter(|count| **count > 0).count();
        let weight = weight(library.documents, df as u32);
        for (of, count) in weighed.iter_mut().zip(counts) {
            *of = (of.0 + weight * count, of.1 + count);
        }
    }
    Ok(Weighed(weighed))
}

impl Weighed {
    /// Every document with an entry once, ascending, with its score.
    pub fn listing(&self) -> Pairs {
        let found = (0..).zip(&self.0).filter(|(_, of)| of.1 > 0);
        found.map(|(document, of)| (document, of.0)).collect()
    }

    /// The nodes of two or more numbers with an entry: start and score of each.
    pub fn nodes(&self) -> Pairs {
        let mut nodes = Vec::new();
        let mut size = self.0.len();
        while size > 1 {
            for (i, node) in self.0.chunks(size).enumerate() {
                if node.iter().any(|of| of.1 > 0) {
                    nodes.push(((i * size) as u32, node.iter().map(|of| of.0).sum()));
                }
            }
            size /= 2;
        }
        nodes
    }
}
