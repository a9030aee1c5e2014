//! Faults of an archive beside those of a question.
use crate::compare::{compare_raw, Met};
use crate::library::archive;
use crate::questions::{answer, Lent, Question};
use crate::raw::Form;
use crate::scores::{library, small};

/// The small library, and for each refusal of an archive bytes that have it.
fn archives() -> Vec<(Vec<u8>, u32)> {
    let small = archive(&small());
    let odd = archive(&library(5, &[&[4, 0, 2], &[4, 1]]));
    let changed = |bytes: &[u8], at: usize, byte: u8| {
        let mut bytes = bytes.to_vec();
        bytes[at] = byte;
        bytes
    };
    let mut all = vec![(small.clone(), 0), (small[..39].to_vec(), 1)];
    all.extend([(0, 2, 2), (8, 0, 3), (16, 41, 4)].map(|(at, byte, refusal)| (changed(&small, at, byte), refusal)));
    all.push((small[..73].to_vec(), 5));
    all.extend([(40, 1, 6), (64, 1, 7)].map(|(at, byte, refusal)| (changed(&small, at, byte), refusal)));
    all.extend([(68, 0x29, 8), (70, 0x0A, 9)].map(|(at, byte, refusal)| (changed(&odd, at, byte), refusal)));
    all
}

/// Puts a question to the small library, and to bytes with each fault: their refusal comes before those of the question.
pub fn compare_with_faults(question: &Question, slices: Lent, met: &mut Met) {
    for (bytes, fault) in archives() {
        let right = if fault > 0 { Err(fault) } else { answer(&small(), question, slices) };
        compare_raw(&bytes, Form::Checked, question, slices, &right);
        if fault == 0 {
            compare_raw(&bytes, Form::Opened, question, slices, &right);
        }
        met.insert(right.err().unwrap_or(0));
    }
}
