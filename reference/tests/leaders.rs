//! Leaders, worked out by hand. A point of gain gives a benefit of 10,000 to a
//! mile, and a strategy of so many units uses these on a mile.

mod common;

use common::{card, card_bytes};
use reference::district::District;
use reference::file::{decode, encode, encode_led};
use reference::leaders::named;
use reference::refusal::Refusal;
use reference::unit::{plan, Unit};
use reference::vectors::led;

/// Strategies; total, total after phase 2 and ceiling; steps, pick-ups and changes.
fn check(district: &District, strategies: &[u8], totals: [i64; 3], counts: [u64; 3]) {
    let shown = plan(district);
    assert_eq!(shown.strategies[..strategies.len()], *strategies);
    assert_eq!([shown.total, shown.total_after_phase_two, shown.ceiling], totals);
    assert_eq!([shown.steps, shown.pickups, shown.changes], counts);
}

/// Segment 1 has no candidate, so 2 takes nothing, and so 3 takes nothing; the
/// ceiling counts all candidates, leaders or not.
#[test]
fn nothing_from_the_start() {
    check(&named("start"), &[0, 0, 0, 1], [100_000, 100_000, 300_000], [0, 0, 0]);
    // 3 follows 1 directly, or nobody.
    check(&led(named("start"), &[0, 1, 1, 0]), &[0, 0, 0, 1], [100_000, 100_000, 300_000], [0, 0, 0]);
    check(&led(named("start"), &[0, 1, 0, 0]), &[0, 0, 1, 1], [200_000, 200_000, 300_000], [0, 0, 0]);
    // 2 has no candidate: 3 behind it takes nothing, 4 behind 1 does.
    check(&named("middle"), &[1, 0, 0, 1], [200_000, 200_000, 300_000], [0, 0, 0]);
}

/// Four times ten units are over 30. Shares are 3,334 and the surplus 3,336 for
/// all, so the least benefit, 10,000 of segment 1, steps to nothing, and 2 and 3
/// with it: one step, ten units. Then 1 is the only one that may be picked up,
/// behind it 2, and 3 has no room.
#[test]
fn one_step_takes_all_that_follow() {
    check(&named("step"), &[1, 2, 0, 2], [210_000, 210_000, 300_004], [1, 2, 0]);
    // With 2 behind nobody only 1 goes, or 1 and 3.
    check(&led(named("step"), &[0; 4]), &[0, 2, 2, 2], [300_000, 300_000, 300_004], [1, 0, 0]);
    check(&led(named("step"), &[0, 0, 1, 0]), &[1, 2, 0, 2], [210_000, 210_000, 300_004], [1, 1, 0]);
    // All four in one chain: 1, 2 and 3 are picked up in this order.
    check(&led(named("step"), &[0, 1, 2, 3]), &[1, 2, 2, 0], [210_000, 210_000, 300_004], [1, 3, 0]);
}

/// With 29 units there is no room for 2 behind 1. In place of 1 there would be,
/// for 90,000 more, but 2 would be without its leader.
#[test]
fn phase_3_leaves_no_follower_without_its_leader() {
    check(&named("short"), &[1, 0, 0, 2], [110_000, 110_000, 290_024], [1, 1, 0]);
    // Behind nobody: 1 steps to nothing, then 2, and 3 and 4 stay.
    check(&led(named("short"), &[0; 4]), &[0, 0, 2, 2], [200_000, 200_000, 290_024], [2, 0, 0]);
}

#[test]
fn all_fit() {
    check(&named("ample"), &[1, 2, 2, 2], [310_000, 310_000, 310_000], [0, 0, 0]);
}

/// A follower that steps to nothing takes nobody along.
#[test]
fn followers_go_alone() {
    check(&named("follower"), &[2, 0], [100_000, 100_000, 100_000], [1, 0, 0]);
}

/// 30 units are over 22: the leader has the lesser ratio and steps from 20 units
/// to 12, which is not nothing.
#[test]
fn a_leader_that_keeps_a_strategy_keeps_its_followers() {
    check(&named("next"), &[2, 3], [190_000, 190_000, 190_009], [1, 0, 0]);
}

/// 20 and 10 units are over 20. Shares 10,000 and 5,000, surplus 5,000, ratios
/// 8,000 and 6,000: the follower goes. 30 + 15 are more than 40, so leader and
/// follower change together. The ceiling is the same at prices from 20 to 30.
#[test]
fn leader_and_follower_change_together() {
    check(&named("both"), &[2, 3], [450_000, 400_000, 450_000], [1, 0, 1]);
}

/// 10, 1 and 11 units are over 12. Segment 3 has the least ratio and goes. With 3
/// in place of 1 there would be 21 + 2 in place of 20 + 2, without 2's leader.
/// Down-shares are 8,333, 833 and 9,166; the ceiling is that of a price of 23.
#[test]
fn nothing_for_a_leader_needs_nothing_for_its_followers() {
    check(&named("kept"), &[1, 2, 0], [220_000, 220_000, 239_182], [1, 0, 0]);
    check(&led(named("kept"), &[0; 3]), &[0, 2, 3], [230_000, 220_000, 239_182], [1, 0, 1]);
    // Where 2 has nothing anyway, 1 may go.
    check(&named("free"), &[0, 0, 3], [210_000, 200_000, 238_341], [1, 0, 1]);
}

/// The card with segment 2 behind segment 1, byte for byte: kind 8, and behind
/// the rating of each segment its leader.
#[test]
fn both_forms() {
    let mut bytes = card_bytes();
    bytes[2] = 8;
    bytes.insert(83, 1);
    bytes[68] += 1;
    bytes.insert(68, 0);
    bytes[53] += 1;
    let district = led(card(), &[0, 1]);
    assert_eq!(encode(&district), bytes);
    assert_eq!(decode(&bytes), Ok(district.clone()));
    assert_eq!(encode_led(&district), bytes);
    // With all leaders 0 it is read, and comes back as the card.
    let emptied = encode_led(&card());
    assert_eq!((emptied.len(), emptied[2], emptied[68], emptied[84]), (89, 8, 0, 0));
    assert_eq!(decode(&emptied), Ok(card()));
    let mut unit = Unit::fresh();
    unit.load(&emptied).unwrap();
    let mut buffer = [7; 90];
    assert_eq!(unit.export(&mut buffer), Ok(87));
    assert_eq!(buffer[..87], card_bytes());
    // The form follows from the leaders held.
    unit.set_leader(2, 1).unwrap();
    assert_eq!(unit.export(&mut buffer[..88]), Err(Refusal::Buffer));
    assert_eq!(unit.export(&mut buffer), Ok(89));
    assert_eq!((&buffer[..89], buffer[89]), (&bytes[..], 7));
    unit.set_leader(2, 0).unwrap();
    assert_eq!(unit.export(&mut buffer), Ok(87));
}

#[test]
fn leaders_that_a_file_may_not_have() {
    for (leaders, fine) in [
        ([0, 0], true),
        ([0, 1], true),
        ([1, 0], false),
        ([2, 0], false),
        ([0, 2], false),
        ([0, 3], false),
        ([0, 255], false),
    ] {
        let read = decode(&encode_led(&led(card(), &leaders)));
        assert_eq!(read.err(), (!fine).then_some(Refusal::Value), "{leaders:?}");
    }
    // Kind 1 with segments of the other form, and the other way round; kind 8 further behind.
    let mut bytes = encode_led(&card());
    bytes[2] = 1;
    assert_eq!(decode(&bytes), Err(Refusal::Length));
    let mut bytes = card_bytes();
    bytes[2] = 8;
    assert_eq!(decode(&bytes), Err(Refusal::Length));
    bytes[2] = 1;
    bytes[12] = 8;
    assert_eq!(decode(&bytes), Err(Refusal::Kind));
    // A first record of neither kind, in both forms; both bytes of a kind count, and they count before its length.
    for mut bytes in [card_bytes(), encode_led(&card())] {
        for kind in (0..=u16::MAX).filter(|kind| ![1, 8].contains(kind)) {
            bytes[2..4].copy_from_slice(&kind.to_le_bytes());
            assert_eq!(decode(&bytes), Err(Refusal::Kind), "{kind}");
        }
        bytes[0] = 7;
        assert_eq!(decode(&bytes), Err(Refusal::Kind));
    }
}

#[test]
fn setting_a_leader() {
    let mut unit = Unit::fresh();
    assert_eq!(unit.set_leader(1, 0), Err(Refusal::Segment));
    unit.load(&encode(&led(named("step"), &[0; 4]))).unwrap();
    let before = unit.clone();
    for segment in [0, 5, 257, u64::MAX] {
        for leader in [0, 1, 5, u64::MAX] {
            assert_eq!(unit.set_leader(segment, leader), Err(Refusal::Segment));
        }
    }
    for (segment, leader) in [(1, 1), (1, 2), (2, 2), (3, 4), (4, 4), (4, 5), (2, 256), (3, 1 << 32), (4, u64::MAX)] {
        assert_eq!(unit.set_leader(segment, leader), Err(Refusal::Leader));
    }
    assert_eq!((unit.clone(), Refusal::Leader.number()), (before, 14));
    // One value is altered, and the plan is made afresh.
    unit.set_leader(2, 1).unwrap();
    unit.set_leader(3, 2).unwrap();
    unit.set_leader(3, 2).unwrap();
    unit.set_leader(1, 0).unwrap();
    assert_eq!(*unit.district(), named("step"));
    assert_eq!(*unit.show(), plan(&named("step")));
    unit.set_leader(2, 0).unwrap();
    assert_eq!(*unit.district(), led(named("step"), &[0, 0, 2, 0]));
    assert_eq!(*unit.show(), plan(unit.district()));
    // A file without leaders takes them away; a refused one does not.
    assert_eq!(unit.load(&encode_led(&led(card(), &[0, 2]))), Err(Refusal::Value));
    assert_eq!(*unit.district(), led(named("step"), &[0, 0, 2, 0]));
    unit.load(&card_bytes()).unwrap();
    assert_eq!(*unit.district(), card());
}
