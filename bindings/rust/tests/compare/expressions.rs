//! Expressions: the numbers of each are read back as that very expression, have no bracket too many, and are asked as what it means.
use crate::library::Library;
use crate::random::{self, Random};
use crate::readings::{documents, reading, readings, Tree};
use crate::sweep::with_archive;
use crate::{quick, rounds};
use masuvelior::marks::{AND, CLOSE, NOT, OPEN, OR};
use masuvelior::{Archive, Argument, Expr, Refusal};
use std::slice::from_ref;

/// The expression of a tree.
fn expr(tree: &Tree) -> Expr {
    match tree {
        Tree::Term(term) => Expr::term(u32::from(*term)),
        Tree::Not(denied) => !expr(denied),
        Tree::And(first, second) => expr(first).and(expr(second)),
        Tree::Or(first, second) => expr(first).or(expr(second)),
    }
}

/// All trees of so many terms and marks; every term is 0.
fn trees(size: usize) -> Vec<Tree> {
    let mut all: Vec<Vec<Tree>> = vec![vec![], vec![Tree::Term(0)]];
    for size in 2..=size {
        let mut some: Vec<Tree> = all[size - 1].iter().map(|denied| Tree::Not(denied.clone().into())).collect();
        for first in 1..size - 1 {
            for (x, y) in all[first].iter().flat_map(|x| all[size - 1 - first].iter().map(move |y| (x, y))) {
                some.push(Tree::And(x.clone().into(), y.clone().into()));
                some.push(Tree::Or(x.clone().into(), y.clone().into()));
            }
        }
        all.push(some);
    }
    all.swap_remove(size)
}

/// The same tree with terms 0, 1, .. from the left.
fn numbered(tree: &Tree, next: &mut u16) -> Tree {
    match tree {
        Tree::Term(_) => {
            *next += 1;
            Tree::Term(*next - 1)
        }
        Tree::Not(denied) => Tree::Not(numbered(denied, next).into()),
        Tree::And(first, second) => Tree::And(numbered(first, next).into(), numbered(second, next).into()),
        Tree::Or(first, second) => Tree::Or(numbered(first, next).into(), numbered(second, next).into()),
    }
}

/// Every tree that these numbers are read as.
fn read(numbers: &[u16]) -> Vec<Tree> {
    readings(numbers).into_iter().map(|(tree, _)| tree).collect()
}

/// The numbers without the bracket that opens at a place and the one that closes it.
fn without_brackets(numbers: &[u16], opens: usize) -> Vec<u16> {
    let mut open = 0;
    let closes = (opens..numbers.len()).find(|place| {
        open += i32::from(numbers[*place] == OPEN) - i32::from(numbers[*place] == CLOSE);
        open == 0
    });
    let kept = |place: &usize| *place != opens && Some(*place) != closes;
    (0..numbers.len()).filter(kept).map(|place| numbers[place]).collect()
}

/// The numbers are read as the tree and in no other way.
fn hold_reading(tree: &Tree) {
    let expr = expr(tree);
    assert_eq!(read(expr.numbers()), from_ref(tree), "{expr:?}");
}

/// Without any two of their brackets they are not.
fn hold_brackets(tree: &Tree) {
    let expr = expr(tree);
    let numbers = expr.numbers();
    for (opens, number) in numbers.iter().enumerate() {
        if *number == OPEN {
            assert_ne!(read(&without_brackets(numbers, opens)), from_ref(tree), "{numbers:?} without {opens}");
        }
    }
}

/// Every expression of up to ten terms and marks.
#[test]
fn every_small_expression() {
    let mut count = 0;
    for size in 1..=if quick() { 6 } else { 10 } {
        for tree in trees(size) {
            let tree = numbered(&tree, &mut 0);
            hold_reading(&tree);
            hold_brackets(&tree);
            count += 1;
        }
    }
    assert!(quick() || count == [1, 1, 3, 7, 21, 61, 191, 603, 1_961, 6_457].iter().sum::<i32>());
}

/// Different expressions are different, and have different numbers.
#[test]
fn equal_where_they_are_the_same() {
    let all: Vec<Tree> = (1..=6).flat_map(trees).collect();
    for (i, x) in all.iter().enumerate() {
        for (j, y) in all.iter().enumerate() {
            assert_eq!(expr(x) == expr(y), i == j, "{x:?} and {y:?}");
            assert_eq!(expr(x).numbers() == expr(y).numbers(), i == j, "{x:?} and {y:?}");
        }
    }
}

/// A random tree with so many marks between its terms.
fn tree(random: &mut Random, terms: u32, marks: u32) -> Tree {
    if random.one_in(4) {
        return Tree::Not(tree(random, terms, marks).into());
    }
    if marks == 0 {
        return Tree::Term(random.below(terms) as u16);
    }
    let first = random.below(marks);
    let (x, y) = (tree(random, terms, first), tree(random, terms, marks - 1 - first));
    match random.one_in(2) {
        true => Tree::And(x.into(), y.into()),
        false => Tree::Or(x.into(), y.into()),
    }
}

/// Asks for an expression: what its tree means, or 18 where its numbers are too many or too deep.
fn ask(archive: &Archive, library: &Library, tree: &Tree) -> bool {
    let expr = expr(tree);
    let right = match reading(expr.numbers()) {
        Some(read) => {
            assert_eq!(read, *tree);
            Ok(documents(library, tree).into_iter().collect::<Vec<u32>>())
        }
        None => Err(Refusal::Question),
    };
    assert_eq!(archive.boolean(expr.numbers()), right, "{:?} of {library:?}", expr.numbers());
    right.is_ok()
}

#[test]
fn random_expressions() {
    let mut random = Random::new(81);
    let mut answered = [0, 0];
    for _ in 0..rounds(400) {
        let (n, documents, terms) = (random.below(200), 1 + random.below(150), 1 + random.below(9));
        let library = random::library(&mut random, n, documents, terms);
        with_archive(&mut random, &library, |random, archive| {
            for _ in 0..10 {
                let marks = random.of_bits(5);
                let tree = tree(random, terms, marks);
                hold_reading(&tree);
                if random.one_in(10) {
                    hold_brackets(&tree);
                }
                answered[usize::from(ask(archive, &library, &tree))] += 1;
            }
        });
    }
    assert!(quick() || answered.iter().all(|count| *count > 100), "{answered:?}");
}

/// `!`, `&` and `|` are the methods, and bind as a question's marks do.
#[test]
fn operators() {
    let [a, b, c] = [4, 5, 6].map(Expr::term);
    assert_eq!(a.clone() & b.clone(), a.clone().and(b.clone()));
    assert_eq!(a.clone() | b.clone(), a.clone().or(b.clone()));
    let question = a.clone() | !b.clone() & c.clone() | !!a.clone();
    assert_eq!(question.numbers(), [4, OR, NOT, 5, AND, 6, OR, NOT, NOT, 4]);
    assert_eq!(question, a.clone().or((!b.clone()).and(c.clone())).or(!!a.clone()));
    let question = (a.clone() | b.clone()) & !(b & (c | a));
    assert_eq!(question.numbers(), [OPEN, 4, OR, 5, CLOSE, AND, NOT, OPEN, 5, AND, OPEN, 6, OR, 4, CLOSE, CLOSE]);
}

/// A term that no archive has is refused wherever it stands; it does not become a mark, nor another term.
#[test]
fn terms_that_are_none() {
    let library = random::library(&mut Random::new(82), 20, 9, 3);
    with_archive(&mut Random::new(83), &library, |_, archive| {
        for term in (4_096..=4_100).chain(59_998..=60_010).chain([65_535, 65_536, 65_537, 1 << 31, u32::MAX]) {
            let none = || Expr::term(term);
            assert_eq!(none().numbers(), [u16::MAX]);
            let questions = [
                none(),
                !none(),
                none().and(Expr::term(0)),
                Expr::term(0).or(none()),
                Expr::term(0).and(none().or(none())),
                !(none() & none()),
            ];
            for question in questions {
                assert_eq!(archive.boolean(question.numbers()), Err(Refusal::Question), "{question:?}");
            }
        }
        for term in [3, 4, 4_095] {
            let question = Expr::term(0) | !Expr::term(term);
            assert_eq!(archive.boolean(question.numbers()), Err(Refusal::Argument(Argument::Term)));
        }
    });
}

/// Expressions of any size are made, and refused where they are asked: one bracket too deep, one number too many, and very large ones.
#[test]
fn as_large_as_one_likes() {
    let library = random::library(&mut Random::new(84), 20, 9, 3);
    with_archive(&mut Random::new(85), &library, |_, archive| {
        let deep = |brackets: usize| (0..=brackets).fold(Expr::term(0), |inside, _| Expr::term(1) & inside);
        let long = |terms: usize| (1..terms).fold(Expr::term(0), |before, _| before | Expr::term(1));
        let denied = |times: usize| (0..times).fold(Expr::term(0), |inside, _| !inside);
        for (expr, is_answered) in [
            (deep(8), true),
            (deep(9), false),
            (long(32), true),
            (!long(31), true), // 'not', two brackets and 61 numbers
            (!long(32), false),
            (long(33), false),
            (denied(63), true),
            (denied(64), false),
            (deep(1_000), false),
            (long(200_000), false),
            (denied(10_000), false),
        ] {
            let answered = archive.boolean(expr.numbers());
            assert_eq!(answered.is_ok(), is_answered, "{} numbers", expr.numbers().len());
            assert!(is_answered || answered == Err(Refusal::Question));
        }
        assert_eq!((deep(8).numbers().len(), long(32).numbers().len(), denied(63).numbers().len()), (35, 63, 64));
    });
}
