//! A refused argument has its name: each question of a small library, at and past every edge.
use masuvelior::Over::{Entries, Terms};
use masuvelior::{per_mille, write, Archive, Argument, Expr, Over, Refusal};

const EDGES: [u32; 12] = [0, 1, 2, 3, 4, 5, 7, 8, 9, 10, u32::MAX - 1, u32::MAX];

/// Holds an outcome to the first of the conditions that holds; where none does, it is to be an answer.
fn hold<T>(outcome: Result<T, Refusal>, conditions: &[(bool, Argument)]) {
    let wrong = conditions.iter().find(|(holds, _)| *holds);
    assert_eq!(outcome.err(), wrong.map(|(_, argument)| Refusal::Argument(*argument)));
}

/// n = 8, N = 4, W = 3.
fn small() -> Vec<u8> {
    write(&[3, 1, 0, 3, 2, 1, 3, 0], &[3, 0, 5], 4).unwrap()
}

#[test]
fn of_one_number() {
    let bytes = small();
    let archive = Archive::open(&bytes).unwrap();
    for x in EDGES {
        hold(archive.access(x), &[(x >= 8, Argument::Place)]);
        hold(archive.rank_set(&[], x), &[(x > 8, Argument::Before)]);
        hold(archive.conjunction(&[0, x]), &[(x >= 3, Argument::Term)]);
        hold(archive.weighted(&[x, 2], 2, 9), &[(x >= 3, Argument::Term)]);
        hold(archive.rarest_first(&[2, x, 2]), &[(x >= 3, Argument::Term)]);
        hold(archive.rarest_first_into(&[x], &mut [0; 8]), &[(x >= 3, Argument::Term)]);
        hold(archive.boolean(Expr::term(x.min(4_095)).or(Expr::term(2)).numbers()), &[(x >= 3, Argument::Term)]);
        for y in EDGES {
            hold(archive.rank(x, y), &[(x >= 4, Argument::Document), (y > 8, Argument::Before)]);
            hold(archive.rank_set(&[x], y), &[(x >= 4, Argument::Document), (y > 8, Argument::Before)]);
            hold(archive.rank_set(&[1, x.max(2)], y), &[(x >= 4, Argument::Document), (y > 8, Argument::Before)]);
            hold(archive.select(x, y), &[(x >= 4, Argument::Document), (y == 0, Argument::Occurrence)]);
            hold(per_mille(x, y), &[(y == 0, Argument::Size), (x > y, Argument::Count)]);
        }
    }
}

/// The questions over a range whose faults are these, and which has so many entries.
fn of_range(archive: &Archive, over: &Over, faults: [(bool, Argument); 2], size: u32) {
    hold(archive.list(over.clone()), &faults);
    hold(archive.greedy(over.clone(), 2, 9), &faults);
    hold(archive.probing(over.clone(), 2), &faults);
    for rank in EDGES {
        let [first, second] = faults;
        hold(archive.quantile(over.clone(), rank), &[first, second, (rank >= size, Argument::Rank)]);
    }
}

#[test]
fn of_ranges() {
    let bytes = small();
    let archive = Archive::open(&bytes).unwrap();
    let starts = [0, 3, 3, 8];
    for x in EDGES {
        for y in EDGES {
            let faults = [(x > y, Argument::CrossedEntries), (y > 8, Argument::End)];
            of_range(&archive, &Entries(x..y), faults, y.wrapping_sub(x));
            let faults = [(x > y, Argument::CrossedTerms), (y >= 3, Argument::LastTerm)];
            hold(archive.range_of_terms(x..=y), &faults);
            let size = if x <= y && y < 3 { starts[y as usize + 1] - starts[x as usize] } else { 0 };
            of_range(&archive, &Terms(x..=y), faults, size);
        }
    }
}
