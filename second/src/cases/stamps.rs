//! Nearness, stamp digests, and stamps against a list of batches, every rule broken.

use super::{digested, Call, Case};
use crate::chance::Chance;
use crate::made;
use crate::nearness;
use crate::postage;

pub fn cases(chance: &mut Chance) -> Vec<Case> {
    let mut cases = nearnesses(chance);
    cases.extend(digests(chance));
    cases.extend(checked(chance));
    cases
}

fn nearnesses(chance: &mut Chance) -> Vec<Case> {
    let mut cases = Vec::new();
    for shared in [0, 1, 2, 7, 8, 9, 15, 16, 31, 63, 64, 65, 127, 128, 191, 192, 193, 254, 255] {
        let first: [u8; 32] = chance.array();
        let second = chance.sharing(&first, shared);
        assert_eq!(nearness::shared_bits(&first, &second), shared as u32);
        cases.push(near(&first, &second));
    }
    let number = chance.bytes(32);
    cases.push(near(&number, &number));
    for (first, second) in [(0, 0), (31, 31), (31, 32), (32, 31), (33, 32), (32, 33), (64, 64), (32, 0)] {
        cases.push(near(&chance.bytes(first), &chance.bytes(second)));
    }
    cases
}

fn near(first: &[u8], second: &[u8]) -> Case {
    let (answer, bits) = match nearness::nearness(first, second) {
        Ok(bits) => (0, bits),
        Err(answer) => (answer, 0u32),
    };
    Case::new(Call::Nearness, &[first, second], &[&answer.to_be_bytes(), &bits.to_be_bytes()])
}

fn digests(chance: &mut Chance) -> Vec<Case> {
    let lengths =
        [(32, 113), (32, 113), (32, 113), (32, 113), (31, 113), (33, 113), (32, 112), (32, 114), (0, 113), (32, 0)];
    let mut cases = Vec::new();
    for (address, stamp) in lengths {
        let (address, stamp) = (chance.bytes(address), chance.bytes(stamp));
        cases.push(Case::new(
            Call::StampDigest,
            &[&address, &stamp],
            &[&digested(postage::stamp_digest(&address, &stamp))],
        ));
    }
    cases
}

/// A list of three batches, and a stamp that passes under the second, then each rule broken in turn, later ones behind.
fn checked(chance: &mut Chance) -> Vec<Case> {
    let list =
        [made::batch(&[3; 32], &[4; 20], 18), made::batch(&[5; 32], &[6; 20], 40), made::batch(&[7; 32], &[8; 20], 17)]
            .concat();
    let address = [&[1, 2], &chance.bytes(30)[..]].concat();
    let stamp = |id: u8, bucket, index| made::stamp(&[id; 32], bucket, index, 9, &[1; 65]);
    let mut cases = Vec::new();
    for (id, bucket, index, owner) in [
        (5, 258, (1 << 24) - 1, 6),
        (3, 258, 3, 4),
        (7, 258, 1, 8),
        (4, 0, 9, 9),
        (2, 258, 0, 4),
        (8, 258, 0, 4),
        (3, 258 + 65_536, 9, 9),
        (3, 259, 0, 4),
        (3, 258, 4, 9),
        (5, 258, 1 << 24, 6),
        (7, 258, u32::MAX, 8),
        (3, 258, 3, 9),
        (5, 258, 0, 4),
    ] {
        cases.push(check_stamp(&list, &address, &stamp(id, bucket, index), &[owner; 20]));
    }
    let good = stamp(3, 258, 0);
    for list in [
        vec![],
        list[..158].to_vec(),
        list[1..].to_vec(),
        [&list[53..], &list[..53]].concat(),
        [&list[..53], &list[..53]].concat(),
    ] {
        cases.push(check_stamp(&list, &address, &good, &[4; 20]));
    }
    for depth in [0, 16, 17, 40, 41, 255] {
        cases.push(check_stamp(&made::batch(&[3; 32], &[4; 20], depth), &address, &good, &[4; 20]));
    }
    for (a, s, o) in
        [(31, 113, 20), (33, 113, 20), (32, 112, 20), (32, 114, 20), (32, 113, 19), (32, 113, 21), (0, 0, 0)]
    {
        cases.push(check_stamp(&list, &chance.bytes(a), &chance.bytes(s), &chance.bytes(o)));
        cases.push(check_stamp(&list[1..], &chance.bytes(a), &chance.bytes(s), &chance.bytes(o)));
    }
    cases
}

fn check_stamp(batches: &[u8], address: &[u8], stamp: &[u8], account: &[u8]) -> Case {
    let answer = postage::check_stamp(batches, address, stamp, account);
    Case::new(Call::CheckStamp, &[batches, address, stamp, account], &[&answer.to_be_bytes()])
}
