//! The generators give what they promise: right fabrics that are accepted, and
//! cases in which every outcome and every refusal comes up.

use std::collections::BTreeMap;

use cases::batches::{Batch, Batches};
use cases::fabric::{Fabric, Record};
use cases::queries::random_query;
use cases::random::Random;
use cases::shapes::{by_kind, chain, comb, random_fabric, random_full, roots};
use cases::shapes::{shuffled, slots, wide, wide_full, with_endpoints};
use model::acs;
use model::Word;
use model::ROOM;
use model::{check, fill, route};

#[test]
fn random_fabrics_are_accepted() {
    let mut random = Random::new(7);
    for records in (0..60).chain([100, 200, 256]) {
        for _ in 0..20 {
            for fabric in [
                random_fabric(&mut random, records),
                random_full(&mut random, records),
            ] {
                assert_eq!(
                    Word(check(&fabric.bytes(), fabric.taken)),
                    Word(0),
                    "{fabric:?}"
                );
            }
        }
    }
}

#[test]
fn extreme_fabrics_are_accepted() {
    for fabric in [
        chain(2, 0, 0),
        chain(7, 0, 0),
        chain(256, 0, 0x1F),
        wide(64, 3, 0x3F),
        wide(256, 0, 0x17),
        wide_full(256, 0, 0x37),
        roots(255, 1, 0x14),
        with_endpoints(roots(128, 1, 0), 128),
        slots(8, 15, 2, 0x17),
        by_kind(slots(8, 15, 2, 0x17)),
        shuffled(wide(256, 2, 0x17), 1),
        comb(256, 2, 0x17),
    ] {
        assert_eq!(check(&fabric.bytes(), fabric.until), 0);
    }
}

/// Pairs of sibling ports: the first has E on, and the second a Port Number that
/// one of the last two vector bits is for.
fn by_last_bits(fabric: &Fabric) -> Vec<(&Record, &Record)> {
    let ports: Vec<&Record> = fabric.records.iter().filter(|r| r.is_port()).collect();
    let mut pairs = Vec::new();
    for &port in ports.iter().filter(|port| port.control & acs::E != 0) {
        let others = ports.iter().filter(|peer| {
            peer.parent == port.parent
                && peer.port_number != port.port_number
                && peer.port_number >= 254
        });
        pairs.extend(others.map(|&peer| (port, peer)));
    }
    pairs
}

#[test]
fn random_full_fabrics_reach_the_last_bits() {
    let mut random = Random::new(13);
    let mut seen: BTreeMap<(u16, u8, bool), usize> = BTreeMap::new();
    for _ in 0..2000 {
        let fabric = random_full(&mut random, 8);
        for (port, peer) in by_last_bits(&fabric) {
            let number = peer.port_number;
            let bit = port.vector[31] >> (number - 248) & 1 == 1;
            let key = (port.capability >> 8, number, bit);
            *seen.entry(key).or_default() += 1;
        }
    }
    println!("{seen:?}");
    for size in [0x00, 0xFE, 0xFF] {
        for number in [254, 255] {
            for bit in [false, true] {
                let count = seen.get(&(size, number, bit));
                assert!(count.is_some_and(|&count| count > 20), "{size} {number}");
            }
        }
    }
}

#[test]
fn extreme_fabrics_are_as_large_as_fits() {
    assert_eq!(slots(8, 15, 2, 0).records.len(), 256);
    assert_eq!(shuffled(wide(256, 2, 0), 1).records.len(), 256);
    // Four records a switch, and two for the ends.
    assert_eq!(comb(256, 2, 0).records.len(), 254);
}

#[test]
fn deepest_chain_makes_257_hops() {
    let fabric = chain(256, 2, 0x14);
    let header = cases::fabric::request(0x40, 0, 0, 0x8000_0000, 1);
    let mut buffer = [0; ROOM];
    let word = Word(route(&fabric.bytes(), 1500, 255, &header, &mut buffer));
    assert_eq!((word.byte(0), word.node(), word.hops()), (1, 255, 257));
}

#[test]
fn cases_have_every_outcome() {
    let mut seen: BTreeMap<(u8, u8, bool), usize> = BTreeMap::new();
    for batch in Batches::new(1).take(3000) {
        let Batch::Queries(batch) = batch else {
            continue;
        };
        for ask in batch.asks {
            let mut buffer = vec![0; ask.buffer];
            let word = Word(route(
                &batch.snapshot,
                batch.now,
                ask.origin,
                &ask.header,
                &mut buffer,
            ));
            let completion = !word.refused() && ask.header[0] & 0x0F == 0x0A;
            *seen
                .entry((word.byte(0), word.byte(1), completion))
                .or_default() += 1;
        }
    }
    println!("{seen:?}");
    for refusal in 1..=7 {
        assert!(seen.contains_key(&(6, refusal, false)), "refusal {refusal}");
    }
    for letter in [0, 1, 5, 7] {
        assert!(seen.contains_key(&(5, letter, false)), "violation {letter}");
    }
    for kind in 0..=4 {
        for completion in [false, true] {
            assert!(
                seen.contains_key(&(kind, 0, completion)),
                "kind {kind} {completion}"
            );
        }
    }
}

#[test]
fn fills_have_every_answer() {
    let (mut cases, mut fills) = (0, 0);
    let mut seen: BTreeMap<(u8, u8, u16), usize> = BTreeMap::new();
    for batch in Batches::new(1).take(6000) {
        cases += batch.cases().len();
        let Batch::Fills(list) = batch else {
            continue;
        };
        fills += list.len();
        for mut case in list {
            let word = Word(fill(&case.image, &mut case.record));
            let length = word.part().1;
            *seen
                .entry((word.byte(0), word.byte(1), length))
                .or_default() += 1;
        }
    }
    println!("{fills} of {cases}: {seen:?}");
    assert!(cases / 5 < fills && fills < cases / 3);
    // Refusals 8 and 9, no ACS, and ACS of every length that there is.
    let lengths = (8..=40).step_by(4).map(|length| (0, 0, length));
    for answer in [(6, 8, 0), (6, 9, 0), (0, 0, 0)].into_iter().chain(lengths) {
        let count = seen.get(&answer).copied().unwrap_or(0);
        assert!(count > fills / 100, "{answer:?}: {count}");
    }
    // Most go far into the rules.
    let refused = seen[&(6, 8, 0)] + seen[&(6, 9, 0)];
    assert!(5 * refused < 2 * fills, "{refused} of {fills}");
}

/// The most ports on the way from any record up to the root complex.
fn most_ports(fabric: &Fabric) -> usize {
    let mut ports: Vec<usize> = Vec::new();
    for record in &fabric.records {
        let above = ports.get(usize::from(record.parent)).copied().unwrap_or(0);
        ports.push(above + usize::from(record.is_port()));
    }
    ports.into_iter().max().unwrap_or(0)
}

#[test]
fn hops_keep_their_bound() {
    let mut random = Random::new(11);
    for round in 0..2000 {
        let fabric = random_fabric(&mut random, 2 + round % 30);
        let bytes = fabric.bytes();
        let bound = 2 * most_ports(&fabric) + 1;
        for _ in 0..10 {
            let query = random_query(&mut random, &fabric);
            let mut buffer = [0; ROOM];
            let word = Word(route(
                &bytes,
                fabric.taken,
                query.origin,
                &query.header,
                &mut buffer,
            ));
            assert!(query.origin == 0xFFFF || word.hops() <= bound);
        }
    }
}
