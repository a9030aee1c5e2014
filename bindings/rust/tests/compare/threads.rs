//! One archive asked from several threads at once.
use crate::compare::{compare_random, Met};
use crate::library::archive;
use crate::random::{library, Random};
use crate::rounds;
use masuvelior::Archive;

#[test]
fn asked_from_several_threads() {
    let library = library(&mut Random::new(31), 900, 100, 20);
    let bytes = archive(&library);
    let archive = Archive::open(&bytes).expect("the model's archive is accepted");
    std::thread::scope(|scope| {
        for seed in 32..36 {
            let library = &library;
            scope.spawn(move || {
                let mut random = Random::new(seed);
                compare_random(&mut random, &archive, library, rounds(200), &mut Met::new());
            });
        }
    });
}
