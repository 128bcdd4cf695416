//! F1 to F14 of document 01, line by line.

use cases::fabric::Fabric;
use cases::fabric::{completion, fabric_f, request, DATA_COMPLETION, READ, WRITE};
use cases::stream::input_bytes;
use model::acsroute;

const NOW: u64 = 1500;
const PEER: u64 = 0x8010_0000;

fn answer(fabric: &Fabric, origin: u16, header: &[u8]) -> String {
    acsroute(&input_bytes(&fabric.bytes(), NOW, origin, header))
}

fn expect(fabric: &Fabric, origin: u16, header: &[u8], line: &str) {
    assert_eq!(
        answer(fabric, origin, header),
        format!("ACS 1 records 6\n{line}\n")
    );
}

/// A write of one doubleword from endpoint 4 to 80100000h.
fn usual() -> Vec<u8> {
    request(WRITE, 0x0300, 0, PEER, 1)
}

const F1: &str = "delivered 5 unvalidated 2:4 3:6 5:7";
const F2: &str = "delivered 5 checked 2:2 0:5 0:6 3:6 5:7";

fn with_bit_two(mut fabric: Fabric) -> Fabric {
    for port in [0, 2, 3] {
        fabric.records[port].set_vector_bit(2);
    }
    fabric
}

#[test]
fn f1() {
    expect(&fabric_f(2, 0), 4, &usual(), F1);
}

#[test]
fn f2() {
    expect(&fabric_f(2, 0x17), 4, &usual(), F2);
}

#[test]
fn f3() {
    expect(
        &fabric_f(0, 0x17),
        4,
        &usual(),
        "violation 0 X drop 2:2 0:7",
    );
}

#[test]
fn f4() {
    expect(&fabric_f(2, 0x07), 4, &usual(), "undefined 0 2:2 0:7");
}

#[test]
fn f5() {
    expect(&fabric_f(2, 0x37), 4, &usual(), F1);
}

#[test]
fn f6() {
    expect(&with_bit_two(fabric_f(2, 0x37)), 4, &usual(), F2);
}

#[test]
fn f7() {
    let read = request(READ, 0x0300, 0, PEER, 1);
    expect(
        &with_bit_two(fabric_f(2, 0x20)),
        4,
        &read,
        "violation 2 E abort 2:7",
    );
}

#[test]
fn f8() {
    let write = request(WRITE, 0x0400, 2, PEER, 1);
    expect(&fabric_f(2, 0x17), 4, &write, "violation 2 V drop 2:7");
}

#[test]
fn f9() {
    let write = request(WRITE, 0x0300, 2, PEER, 1);
    expect(&fabric_f(2, 0x17), 4, &write, "violation 2 B drop 2:7");
}

#[test]
fn f10() {
    let write = request(WRITE, 0x0300, 2, PEER, 1);
    expect(&fabric_f(2, 0x55), 4, &write, F1);
}

#[test]
fn f11() {
    let write = request(WRITE, 0x0300, 0, 0x8030_0000, 1);
    expect(&fabric_f(2, 0), 4, &write, "unclaimed 1 2:1 1:7");
}

#[test]
fn f12() {
    let write = request(WRITE, 0x0300, 0, 0x1000, 1);
    expect(&fabric_f(2, 0), 4, &write, "host 65535 2:1 0:1 65535:7");
}

#[test]
fn f13() {
    let write = request(WRITE, 0x0300, 0, 0x8010_1000, 1);
    expect(&fabric_f(2, 0), 4, &write, "unclaimed 5 2:4 3:6 5:7");
    let edge = request(WRITE, 0x0300, 0, 0x8010_0FFC, 1);
    expect(&fabric_f(2, 0), 4, &edge, F1);
    let crossing = request(WRITE, 0x0300, 0, 0x8010_0FFC, 2);
    assert_eq!(answer(&fabric_f(2, 0), 4, &crossing), "refusal 6 0\n");
}

#[test]
fn f14() {
    let fabric = fabric_f(2, 0x18);
    let ordered = completion(DATA_COMPLETION, 0x0300, false);
    expect(
        &fabric,
        5,
        &ordered,
        "delivered 4 checked 3:2 0:5 0:6 2:6 4:7",
    );
    let relaxed = completion(DATA_COMPLETION, 0x0300, true);
    expect(&fabric, 5, &relaxed, "delivered 4 unvalidated 3:4 2:6 4:7");
}

#[test]
fn framing() {
    let input = input_bytes(&fabric_f(2, 0).bytes(), NOW, 4, &usual());
    assert_eq!(acsroute(&[]), "input\n");
    assert_eq!(acsroute(&input[..input.len() - 1]), "input\n");
    assert_eq!(acsroute(&[&input[..], &[0]].concat()), "input\n");
    assert_eq!(
        acsroute(&input_bytes(&[], NOW, 4, &usual())),
        "refusal 1 0\n"
    );
}
