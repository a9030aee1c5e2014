//! The model of the archive, after `docs/FORMAT.md`: its own writer and its own check on opening, in plain lists.

/// A library: its entries, those of term 0 first; how many of them each term has; and how many documents there are.
#[derive(Clone, Debug, PartialEq)]
pub struct Library {
    pub entries: Vec<u32>,
    pub lengths: Vec<u32>,
    pub documents: u32,
}

/// The smallest h with 2^h at least N.
pub fn height(documents: u32) -> u32 {
    (0..).find(|h| 1u64 << h >= u64::from(documents)).unwrap()
}

/// The three pairs of the header for n, N and W.
fn pairs(n: u64, documents: u32, terms: u64) -> [(u64, u64); 3] {
    let h = u64::from(height(documents));
    let table = (40, 8 * terms);
    let samples = (table.0 + table.1, h * 4 * ((n + 511) / 512));
    let rows = (samples.0 + samples.1, h * ((n + 7) / 8));
    [table, samples, rows]
}

fn within_limits(n: u64, documents: u64, terms: u64) -> bool {
    n <= 65_535 && (1..=4_096).contains(&documents) && (1..=4_096).contains(&terms)
}

/// The bits of each row: arrange the entries by value div 2^(h-j), and take (value div 2^(h-1-j)) mod 2.
fn rows(entries: &[u32], h: u32) -> Vec<Vec<bool>> {
    let row = |j: u32| {
        let mut arranged = entries.to_vec();
        arranged.sort_by_key(|value| value >> (h - j));
        let bit = |value: &u32| (value >> (h - 1 - j)) % 2 == 1;
        arranged.iter().map(bit).collect()
    };
    (0..h).map(row).collect()
}

/// The entries of these rows. Before row j we know the first j bits of each place's entry, so also how row j arranges them.
fn entries_of(rows: &[Vec<bool>], n: usize) -> Vec<u32> {
    let mut arranged: Vec<(u32, usize)> = (0..n).map(|place| (0, place)).collect();
    for row in rows {
        for (known, bit) in arranged.iter_mut().zip(row) {
            known.0 = 2 * known.0 + u32::from(*bit);
        }
        arranged.sort();
    }
    arranged.sort_by_key(|known| known.1);
    arranged.iter().map(|known| known.0).collect()
}

/// How many ones a row has below bit 512 × t, for each t with a sample.
fn samples(row: &[bool]) -> Vec<u64> {
    let before = |t: usize| row[..512 * t].iter().filter(|bit| **bit).count() as u64;
    (0..(row.len() + 511) / 512).map(before).collect()
}

/// The archive of a library that is within its limits.
pub fn archive(library: &Library) -> Vec<u8> {
    let (n, terms) = (library.entries.len() as u64, library.lengths.len() as u64);
    let mut numbers = vec![1, n, u64::from(library.documents), terms];
    for (offset, length) in pairs(n, library.documents, terms) {
        numbers.extend([offset, length]);
    }
    let mut start = 0;
    for length in &library.lengths {
        numbers.extend([start, u64::from(*length)]);
        start += u64::from(*length);
    }
    let rows = rows(&library.entries, height(library.documents));
    numbers.extend(rows.iter().flat_map(|row| samples(row)));
    let mut bytes: Vec<u8> = numbers.iter().flat_map(|number| (*number as u32).to_le_bytes()).collect();
    for row in &rows {
        for eight in row.chunks(8) {
            let weight = |(i, bit): (usize, &bool)| u8::from(*bit) << i;
            bytes.push(eight.iter().enumerate().map(weight).sum());
        }
    }
    bytes
}

/// The writer into a target that is long enough: what it writes, or its refusal.
pub fn write(library: &Library) -> Result<Vec<u8>, u32> {
    let (n, terms) = (library.entries.len() as u64, library.lengths.len() as u64);
    if !within_limits(n, u64::from(library.documents), terms) {
        return Err(14);
    }
    let outside = |entry: &u32| *entry >= library.documents;
    if library.entries.iter().any(outside) {
        return Err(15);
    }
    if library.lengths.iter().map(|x| u64::from(*x)).sum::<u64>() != n {
        return Err(16);
    }
    Ok(archive(library))
}

/// The same into a target of so many bytes.
pub fn fitting(written: &Result<Vec<u8>, u32>, target_length: usize) -> Result<&[u8], u32> {
    match written {
        Ok(bytes) if target_length < bytes.len() => Err(17),
        Ok(bytes) => Ok(bytes),
        Err(refusal) => Err(*refusal),
    }
}

/// The check on opening: the library, or the refusal.
pub fn open(bytes: &[u8]) -> Result<Library, u32> {
    if bytes.len() < 40 {
        return Err(1);
    }
    let number = |at: u64| {
        let four = &bytes[at as usize..at as usize + 4];
        u64::from(u32::from_le_bytes(four.try_into().unwrap()))
    };
    if number(0) != 1 {
        return Err(2);
    }
    let (n, documents, terms) = (number(4), number(8), number(12));
    if !within_limits(n, documents, terms) {
        return Err(3);
    }
    let documents = documents as u32;
    let given = [16, 24, 32].map(|at| (number(at), number(at + 4)));
    let pairs = pairs(n, documents, terms);
    if given != pairs {
        return Err(4);
    }
    if bytes.len() as u64 != pairs[2].0 + pairs[2].1 {
        return Err(5);
    }
    let table: Vec<(u64, u64)> = (0..terms).map(|t| (number(40 + 8 * t), number(44 + 8 * t))).collect();
    let mut end = 0;
    for (start, length) in &table {
        if *start != end {
            return Err(6);
        }
        end = start + length;
    }
    if end != n {
        return Err(6);
    }
    let stored = &bytes[pairs[2].0 as usize..];
    let (rows, unused) = bits(stored, n as usize, height(documents));
    let given: Vec<u64> = (0..pairs[1].1 / 4).map(|i| number(pairs[1].0 + 4 * i)).collect();
    let right: Vec<u64> = rows.iter().flat_map(|row| samples(row)).collect();
    if given != right {
        return Err(7);
    }
    if unused.contains(&true) {
        return Err(8);
    }
    let entries = entries_of(&rows, n as usize);
    if entries.iter().any(|entry| *entry >= documents) {
        return Err(9);
    }
    let lengths = table.iter().map(|pair| pair.1 as u32).collect();
    Ok(Library { entries, lengths, documents })
}

/// The rows in these bytes, each of n bits, and the bits that no row uses.
fn bits(stored: &[u8], n: usize, h: u32) -> (Vec<Vec<bool>>, Vec<bool>) {
    let width = (n + 7) / 8;
    let mut unused = Vec::new();
    let mut rows = Vec::new();
    for j in 0..h as usize {
        let bit = |i: usize| stored[j * width + i / 8] >> (i % 8) & 1 == 1;
        rows.push((0..n).map(bit).collect());
        unused.extend((n..8 * width).map(bit));
    }
    (rows, unused)
}
