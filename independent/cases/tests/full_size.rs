//! Request 1/13 of document 02, worked by hand: of a vector's size field "00h
//! means 256 bits; 01h to FFh mean themselves", in Capabilities with E.

use cases::fabric::{fabric_f, request, with_bit, with_capability, Fabric, READ, WRITE};
use cases::stream::input_bytes;
use model::acsroute;

const PEER: u64 = 0x8010_0000;

/// The handling that the vector bit decides, as hops and outcome.
const DIRECT: &str = "delivered 5 unvalidated 2:4 3:6 5:7";
const REDIRECT: &str = "delivered 5 checked 2:2 0:5 0:6 3:6 5:7";
const BLOCKED: &str = "violation 2 E drop 2:7";

/// What `acsroute` prints for a request of one doubleword from node 4 to node 5.
fn answer(fabric: &Fabric, kind: u8) -> String {
    let header = request(kind, 0x0300, 0, PEER, 1);
    acsroute(&input_bytes(&fabric.bytes(), 1500, 4, &header))
}

fn expect(fabric: &Fabric, kind: u8, line: &str) {
    assert_eq!(
        answer(fabric, kind),
        format!("ACS 1 records 6\n{line}\n"),
        "{fabric:?}"
    );
}

/// Fabric F with this size field, and all other bits of the Capability.
fn sized(size: u16, control: u16) -> Fabric {
    with_capability(fabric_f(2, control), size << 8 | 0x7F)
}

/// The same with control 20h, where a bit that reads 1 blocks: these vector bits
/// are set, and the peer has this Port Number.
fn blocking(size: u16, bits: &[u8], number: u8) -> Fabric {
    let set = |fabric, &bit: &u8| with_bit(fabric, bit);
    let mut fabric = bits.iter().fold(sized(size, 0x20), set);
    fabric.records[2].port_number = 2;
    fabric.records[3].port_number = number;
    fabric
}

fn all_bits(mut fabric: Fabric) -> Fabric {
    for port in fabric.ports_mut() {
        port.vector = [0xFF; 32];
    }
    fabric
}

#[test]
fn fabric_f_with_full_size_vectors() {
    expect(&sized(0x00, 0x37), WRITE, DIRECT);
    expect(&with_bit(sized(0x00, 0x37), 2), WRITE, REDIRECT);
    let egress = with_bit(sized(0x00, 0x20), 2);
    expect(&egress, READ, "violation 2 E abort 2:7");
    expect(&egress, WRITE, BLOCKED);
}

#[test]
fn every_bit_of_a_full_size_vector_is_read() {
    for number in (0..=255).filter(|&number| number != 2) {
        expect(&blocking(0x00, &[number], number), WRITE, BLOCKED);
        // The bit itself, and not one beside it.
        let beside = [number.wrapping_sub(1), number.wrapping_add(1)];
        expect(&blocking(0x00, &beside, number), WRITE, DIRECT);
    }
}

#[test]
fn size_one_is_one_bit() {
    expect(&blocking(0x01, &[0, 1], 0), WRITE, BLOCKED);
    expect(&blocking(0x01, &[0, 1], 1), WRITE, DIRECT);
}

#[test]
fn bit_255_is_read_by_size_00h_only() {
    expect(&blocking(0x00, &[255], 255), WRITE, BLOCKED);
    expect(&blocking(0xFF, &[255], 255), WRITE, DIRECT);
    expect(&blocking(0x01, &[255], 255), WRITE, DIRECT);
    // FFh means itself: 255 bits, and bit 254 is the last of them.
    expect(&blocking(0xFF, &[254], 254), WRITE, BLOCKED);
    expect(&blocking(0xFE, &[254], 254), WRITE, DIRECT);
}

#[test]
fn sizes_from_01h_to_ffh_mean_themselves() {
    for size in 0x01..=0xFF {
        let (last, next) = (size as u8 - 1, size as u8);
        // Port Number 2 is node 2's, so the peer can't have it.
        if last != 2 {
            expect(&blocking(size, &[last], last), WRITE, BLOCKED);
        }
        if next != 2 {
            expect(&blocking(size, &[next], next), WRITE, DIRECT);
        }
    }
}

#[test]
fn the_entered_ports_size_counts() {
    let mut fabric = blocking(0x08, &[200], 200);
    expect(&fabric, WRITE, DIRECT);
    fabric.records[3].capability = 0x007F;
    expect(&fabric, WRITE, DIRECT);
    fabric.records[2].capability = 0x007F;
    fabric.records[3].capability = 0x087F;
    expect(&fabric, WRITE, BLOCKED);
}

#[test]
fn root_ports_have_full_size_vectors_too() {
    // From node 4 up, and at node 0 to a second root port of Port Number 255.
    let mut fabric = sized(0x00, 0x20);
    let mut second = fabric.records[0].clone().buses(0, 5, 5).numbers(255, 0);
    second.ranges[0] = (0x9000_0000, 0x900F_FFFF);
    fabric.records.push(second);
    fabric.flags = 1;
    let header = request(WRITE, 0x0300, 0, 0x9000_0000, 1);
    let line = |fabric: &Fabric| acsroute(&input_bytes(&fabric.bytes(), 1500, 4, &header));
    let direct = "ACS 1 records 7\nunclaimed 6 2:1 0:4 6:7\n";
    assert_eq!(line(&fabric), direct);
    assert_eq!(line(&with_bit(fabric.clone(), 254)), direct);
    let blocked = "ACS 1 records 7\nviolation 0 E drop 2:1 0:7\n";
    assert_eq!(line(&with_bit(fabric, 255)), blocked);
}

#[test]
fn without_e_in_control_no_vector_is_asked() {
    // E is in the Capability, with 00h; then in neither register, with 00h and 08h.
    for capability in [0x007F, 0x005F, 0x085F] {
        for (control, line) in [(0x10, DIRECT), (0x17, REDIRECT)] {
            let fabric = with_capability(fabric_f(2, control), capability);
            expect(&all_bits(fabric), WRITE, line);
        }
    }
    // Control has E only where the Capability has it.
    let faulty = with_capability(fabric_f(2, 0x37), 0x005F);
    assert_eq!(answer(&faulty, WRITE), "refusal 4 0\n");
}
