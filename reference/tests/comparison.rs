//! The comparison itself: silent on the rules, and able to find every seeded fault.

use reference::budget::find;
use reference::cases::case;
use reference::compare::{seeded, Reference, Renderer};
use reference::fault::{Fault, ALL};
use reference::random::Random;
use reference::sums::{fnv, poly, source};

#[test]
fn the_rules_agree_with_themselves() {
    for seed in 0..2_000 {
        assert_eq!(seeded(&Reference(Fault::None), seed), Vec::<String>::new());
    }
}

#[test]
fn every_fault_is_found() {
    assert!(ALL.len() >= 20);
    let missed: Vec<&str> =
        ALL.iter().filter(|(fault, _)| find(*fault, 20_000).is_none()).map(|(_, text)| *text).collect();
    assert_eq!(missed, Vec::<&str>::new());
}

/// Random calls earn every answer that a call can have.
#[test]
fn calls_of_every_answer() {
    let mut random = Random::new(6);
    let mut seen = [0; 18];
    for _ in 0..5_000 {
        let mut case = case(&mut random);
        let (mut place, mut count) = (0, 0);
        let answer = Reference(Fault::None).redraw(
            case.width,
            case.height,
            &case.steps,
            case.rect,
            &case.source,
            &mut case.workspace,
            &mut case.scratch,
            &mut place,
            &mut count,
        );
        seen[answer as usize] += 1;
    }
    for number in (0..18).filter(|number| ![12, 16].contains(number)) {
        assert!(seen[number] >= 10, "{number}: {seen:?}");
    }
    assert_eq!((seen[12], seen[16]), (0, 0));
}

#[test]
fn sums_of_short_texts() {
    assert_eq!(fnv(b""), 0xcbf2_9ce4_8422_2325);
    assert_eq!(fnv(b"a"), 0xaf63_dc4c_8601_ec8c);
    assert_eq!(poly(&[1, 2]), 2 * 257 + 3);
    // 0: 1,013,904,223 is 3c6ef35f; then 47502932, d1ccf6e9, aaf95334: alpha aa lowers d1.
    assert_eq!(source(0, 1), [0x3c, 0x47, 0xaa, 0xaa]);
}
