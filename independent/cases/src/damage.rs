//! Breaking the rules: one at a time, or by stray bytes.

use crate::fabric::{Fabric, Record, CLOSED};
use crate::random::Random;
use model::acs;

const MIB: u64 = 1 << 20;

/// Breaks one rule somewhere, or gives nothing if the fabric has no place for
/// it. What comes out is mostly faulty; at the edges it may be right.
type Break = fn(&mut Random, &mut Fabric) -> Option<()>;

const BREAKS: &[Break] = &[
    wrong_kind,
    reserved_bytes,
    root_parent,
    parent_anywhere,
    parent_of_wrong_kind,
    second_child,
    byte_one,
    byte_five,
    registers_of_others,
    vector_of_others,
    endpoint_buses,
    root_own_bus,
    own_bus,
    secondary_at_own_bus,
    subordinate_below_secondary,
    subordinate_outside,
    buses_meet,
    same_port_number,
    same_byte_five,
    same_device,
    memory_above,
    bridge_range_open,
    window_first,
    window_last,
    empty_pair,
    zero_pair,
    length_odd,
    length_edges,
    length_whole,
    misaligned,
    own_overlap,
    sibling_overlap,
    outside_window,
    over_the_edge,
    two_windows,
    low_window,
    capability_bits,
    capability_size,
    capability_kind,
    control_outside,
    control_high,
];

pub const BREAK_COUNT: usize = BREAKS.len();

/// Breaks the rule of that number, below `BREAK_COUNT`.
pub fn break_rule(random: &mut Random, fabric: &mut Fabric, number: usize) -> Option<()> {
    BREAKS[number](random, fabric)
}

/// A snapshot with something wrong, most of the time.
pub fn damaged(random: &mut Random, fabric: &Fabric) -> Vec<u8> {
    let mut fabric = fabric.clone();
    match random.below(20) {
        0..=9 => break_rules(random, &mut fabric, 1),
        10 => break_rules(random, &mut fabric, 2),
        11 => {
            break_head(random, &mut fabric);
            if random.coin() {
                break_rules(random, &mut fabric, 1);
            }
        }
        _ => {}
    }
    let mut bytes = fabric.bytes();
    match random.below(20) {
        0..=2 => stray_bytes(random, &mut bytes, 1),
        3 => stray_bytes(random, &mut bytes, 2),
        4 => wrong_length(random, &mut bytes),
        5 => stray_head(random, &mut bytes),
        _ => {}
    }
    bytes
}

/// A time inside the snapshot's, at its edges, or outside.
pub fn random_time(random: &mut Random, fabric: &Fabric) -> u64 {
    let (taken, until) = (fabric.taken, fabric.until);
    match random.below(16) {
        0 => taken,
        1 => until,
        2 => taken.wrapping_sub(1),
        3 => until.wrapping_add(1),
        4 => random.word(),
        _ => inside(random, fabric),
    }
}

/// A time at which the snapshot is good, if there is one.
pub fn inside(random: &mut Random, fabric: &Fabric) -> u64 {
    let (first, last) = (fabric.taken, fabric.until.max(fabric.taken));
    random.between(first, last)
}

pub fn break_rules(random: &mut Random, fabric: &mut Fabric, count: usize) {
    let mut done = 0;
    for _ in 0..40 {
        if done == count {
            return;
        }
        let rule = random.pick(BREAKS);
        if rule(random, fabric).is_some() {
            done += 1;
        }
    }
}

fn break_head(random: &mut Random, fabric: &mut Fabric) {
    match random.below(4) {
        0 => fabric.version = random.pick(&[0, 2, 0x0100, 0x0101]),
        1 => fabric.flags |= 4 << random.below(6),
        2 => std::mem::swap(&mut fabric.taken, &mut fabric.until),
        _ => fabric.mark[random.index(3)] ^= 1 << random.below(8),
    }
}

fn stray_bytes(random: &mut Random, bytes: &mut [u8], count: usize) {
    for _ in 0..count {
        let place = random.index(bytes.len());
        bytes[place] = match random.below(4) {
            0 => random.byte(),
            1 => bytes[place].wrapping_add(1),
            2 => bytes[place].wrapping_sub(1),
            _ => bytes[place] ^ 1 << random.below(8),
        };
    }
}

fn stray_head(random: &mut Random, bytes: &mut [u8]) {
    let place = random.index(24);
    bytes[place] ^= 1 << random.below(8);
}

fn wrong_length(random: &mut Random, bytes: &mut Vec<u8>) {
    if random.coin() {
        let length = random.pick(&[0, 3, 23, 24, bytes.len() - 1]);
        let length = if random.coin() {
            random.index(bytes.len())
        } else {
            length
        };
        bytes.truncate(length);
    } else {
        let more = random.pick(&[1, 2, 144, 143]);
        bytes.resize(bytes.len() + more, 0);
    }
}

/// A random record among those that pass the test.
fn some<'a>(
    random: &mut Random,
    fabric: &'a mut Fabric,
    test: impl Fn(&Record) -> bool,
) -> Option<&'a mut Record> {
    let list = fabric.matching(test);
    if list.is_empty() {
        return None;
    }
    Some(fabric.record_mut(random.pick(&list)))
}

/// A random pair of siblings: the later one's index and the earlier one.
fn siblings(random: &mut Random, fabric: &Fabric) -> Option<(u16, Record)> {
    let mut pairs = Vec::new();
    for later in 0..fabric.records.len() as u16 {
        for earlier in 0..later {
            if fabric.record(earlier).parent == fabric.record(later).parent {
                pairs.push((later, earlier));
            }
        }
    }
    if pairs.is_empty() {
        return None;
    }
    let (later, earlier) = random.pick(&pairs);
    Some((later, fabric.record(earlier).clone()))
}

/// A random record that has a parent, with the parent.
fn child(random: &mut Random, fabric: &Fabric) -> Option<(u16, Record)> {
    let count = fabric.records.len();
    let children = fabric.matching(|record| record.kind != 1 && usize::from(record.parent) < count);
    if children.is_empty() {
        return None;
    }
    let index = random.pick(&children);
    Some((index, fabric.record(fabric.record(index).parent).clone()))
}

fn wrong_kind(random: &mut Random, fabric: &mut Fabric) -> Option<()> {
    let kind = random.pick(&[0, 5, 5, 6, 255, 1, 2, 3, 4]);
    some(random, fabric, |_| true)?.kind = kind;
    Some(())
}

fn reserved_bytes(random: &mut Random, fabric: &mut Fabric) -> Option<()> {
    let place = random.index(4);
    let bit = 1 << random.below(8);
    some(random, fabric, |_| true)?.reserved[place] = bit;
    Some(())
}

fn root_parent(random: &mut Random, fabric: &mut Fabric) -> Option<()> {
    let parent = random.pick(&[0, 1, 0xFFFE, 0xFF00, 0x00FF]);
    some(random, fabric, |record| record.kind == 1)?.parent = parent;
    Some(())
}

fn parent_anywhere(random: &mut Random, fabric: &mut Fabric) -> Option<()> {
    let count = fabric.records.len() as u64;
    let parent = match random.below(3) {
        0 => 0xFFFF,
        1 => random.pick(&[count as u16, 0x8000, 0x0100]),
        _ => random.below(count.max(1)) as u16,
    };
    some(random, fabric, |record| record.kind != 1)?.parent = parent;
    Some(())
}

/// An endpoint or switch put where only its parent's kind is wrong.
fn parent_of_wrong_kind(random: &mut Random, fabric: &mut Fabric) -> Option<()> {
    let parents = fabric.matching(|record| record.kind == 2);
    let ports = fabric.matching(|record| record.is_port());
    if parents.is_empty() || random.coin() {
        // A kind 3 under a port that has no child yet.
        let used: Vec<u16> = fabric.records.iter().map(|record| record.parent).collect();
        let free: Vec<u16> = ports
            .into_iter()
            .filter(|port| !used.contains(port))
            .collect();
        if free.is_empty() {
            return None;
        }
        let port = random.pick(&free);
        let above = fabric.record(port).clone();
        let bus = above.secondary.checked_add(1)?;
        let record = Record::new(3, port).buses(above.secondary, bus, above.subordinate);
        fabric.records.push(record);
        return Some(());
    }
    let parent = random.pick(&parents);
    let bus = fabric.record(parent).secondary;
    fabric.records.push(Record::new(4, parent).buses(bus, 0, 0));
    Some(())
}

fn second_child(random: &mut Random, fabric: &mut Fabric) -> Option<()> {
    let ports = fabric.matching(|record| record.is_port());
    if ports.is_empty() {
        return None;
    }
    let port = random.pick(&ports);
    let bus = fabric.record(port).secondary;
    fabric.records.push(Record::new(4, port).buses(bus, 0, 0));
    Some(())
}

fn byte_one(random: &mut Random, fabric: &mut Fabric) -> Option<()> {
    let number = random.byte() | 1;
    some(random, fabric, |record| !record.is_port())?.port_number = number;
    Some(())
}

fn byte_five(random: &mut Random, fabric: &mut Fabric) -> Option<()> {
    let place = random.pick(&[1, 8, 0x80]);
    some(random, fabric, |record| !record.is_port())?.device_function = place;
    Some(())
}

fn registers_of_others(random: &mut Random, fabric: &mut Fabric) -> Option<()> {
    let (capability, control) = random.pick(&[(0x087F, 0), (0x0100, 0), (0x087F, 0x17), (0, 0x80)]);
    let record = some(random, fabric, |record| !record.is_port())?;
    record.capability = capability;
    record.control = control;
    Some(())
}

fn vector_of_others(random: &mut Random, fabric: &mut Fabric) -> Option<()> {
    let number = random.byte();
    some(random, fabric, |record| !record.is_port())?.set_vector_bit(number);
    Some(())
}

fn endpoint_buses(random: &mut Random, fabric: &mut Fabric) -> Option<()> {
    let (secondary, subordinate) = random.pick(&[(0, 1), (1, 0), (5, 5), (0, 255)]);
    let record = some(random, fabric, |record| record.kind == 4)?;
    record.secondary = secondary;
    record.subordinate = subordinate;
    Some(())
}

fn root_own_bus(random: &mut Random, fabric: &mut Fabric) -> Option<()> {
    let record = some(random, fabric, |record| {
        record.kind == 1 && record.secondary > 1
    })?;
    record.own_bus = random.between(1, u64::from(record.secondary) - 1) as u8;
    Some(())
}

fn own_bus(random: &mut Random, fabric: &mut Fabric) -> Option<()> {
    let change = random.pick(&[1, 255, 2]);
    let record = some(random, fabric, |record| record.kind != 1)?;
    record.own_bus = record.own_bus.wrapping_add(change);
    Some(())
}

fn secondary_at_own_bus(random: &mut Random, fabric: &mut Fabric) -> Option<()> {
    let record = some(random, fabric, Record::is_bridge)?;
    record.secondary = record.own_bus;
    Some(())
}

fn subordinate_below_secondary(random: &mut Random, fabric: &mut Fabric) -> Option<()> {
    let down = random.pick(&[1, 1, 2]);
    let record = some(random, fabric, Record::is_bridge)?;
    record.subordinate = record.secondary.saturating_sub(down);
    Some(())
}

fn subordinate_outside(random: &mut Random, fabric: &mut Fabric) -> Option<()> {
    let (index, parent) = child(random, fabric)?;
    let up = random.pick(&[0, 1, 1, 3]);
    if !fabric.record(index).is_bridge() {
        return None;
    }
    fabric.record_mut(index).subordinate = parent.subordinate.saturating_add(up);
    Some(())
}

fn buses_meet(random: &mut Random, fabric: &mut Fabric) -> Option<()> {
    let (index, earlier) = siblings(random, fabric)?;
    let record = fabric.record_mut(index);
    if random.coin() {
        (record.secondary, record.subordinate) = (earlier.secondary, earlier.subordinate);
    } else if record.secondary > earlier.subordinate {
        record.secondary = earlier.subordinate;
    } else {
        record.subordinate = earlier.secondary;
    }
    Some(())
}

fn same_port_number(random: &mut Random, fabric: &mut Fabric) -> Option<()> {
    let (index, earlier) = siblings(random, fabric)?;
    fabric.record_mut(index).port_number = earlier.port_number;
    Some(())
}

fn same_byte_five(random: &mut Random, fabric: &mut Fabric) -> Option<()> {
    let (index, earlier) = siblings(random, fabric)?;
    fabric.record_mut(index).device_function = earlier.device_function;
    Some(())
}

/// The same device but another function, which is right.
fn same_device(random: &mut Random, fabric: &mut Fabric) -> Option<()> {
    let (index, earlier) = siblings(random, fabric)?;
    fabric.record_mut(index).device_function = earlier.device_function ^ 1;
    Some(())
}

fn memory_above(random: &mut Random, fabric: &mut Fabric) -> Option<()> {
    let bare = |record: &Record| record.is_bridge() && record.ranges[1] != CLOSED;
    let record = some(random, fabric, bare)?;
    record.ranges.swap(0, 1);
    if random.coin() {
        record.ranges[1] = CLOSED;
    }
    Some(())
}

fn bridge_range_open(random: &mut Random, fabric: &mut Fabric) -> Option<()> {
    let number = 2 + random.index(4);
    let record = some(random, fabric, Record::is_bridge)?;
    let window = record.ranges[1];
    record.ranges[1] = CLOSED;
    record.ranges[number] = if window == CLOSED {
        (0, MIB - 1)
    } else {
        window
    };
    Some(())
}

fn open_bridge(record: &Record) -> bool {
    record.is_bridge() && record.ranges[..2].iter().any(|&range| range != CLOSED)
}

/// One of the open ranges of a record, which has one.
fn open_number(random: &mut Random, record: &Record) -> usize {
    let open: Vec<usize> = (0..6)
        .filter(|&number| record.ranges[number] != CLOSED)
        .collect();
    random.pick(&open)
}

fn window_first(random: &mut Random, fabric: &mut Fabric) -> Option<()> {
    let step = random.pick(&[1, 0x1000, 0x1_0000, 0x8_0000]);
    let index = some_open(random, fabric, open_bridge)?;
    let number = open_number(random, fabric.record(index));
    let first = &mut fabric.record_mut(index).ranges[number].0;
    *first = first.wrapping_add(step);
    Some(())
}

fn window_last(random: &mut Random, fabric: &mut Fabric) -> Option<()> {
    let step = random.pick(&[1, 0x1000, 0x1_0000, 0x8_0000]);
    let index = some_open(random, fabric, open_bridge)?;
    let number = open_number(random, fabric.record(index));
    let last = &mut fabric.record_mut(index).ranges[number].1;
    *last = last.wrapping_sub(step);
    Some(())
}

fn some_open(random: &mut Random, fabric: &Fabric, test: impl Fn(&Record) -> bool) -> Option<u16> {
    let list = fabric.matching(test);
    if list.is_empty() {
        None
    } else {
        Some(random.pick(&list))
    }
}

fn empty_pair(random: &mut Random, fabric: &mut Fabric) -> Option<()> {
    let pair = random.pick(&[
        (2, 1),
        (1, 0),
        (0x10_0000, 0xF_FFFF),
        (u64::MAX, 0),
        (2, 0),
        (128, 127),
    ]);
    let number = random.index(6);
    some(random, fabric, |_| true)?.ranges[number] = pair;
    Some(())
}

fn zero_pair(random: &mut Random, fabric: &mut Fabric) -> Option<()> {
    let pair = random.pick(&[(0, 0), (0, 0), (1, 1), (0, 1)]);
    let number = random.index(6);
    some(random, fabric, |_| true)?.ranges[number] = pair;
    Some(())
}

fn open_endpoint(record: &Record) -> bool {
    record.kind == 4 && record.ranges.iter().any(|&range| range != CLOSED)
}

/// An endpoint's range that gets a new length in its place, other ranges closed.
fn new_length(random: &mut Random, fabric: &mut Fabric, length: u64) -> Option<()> {
    let index = some_open(random, fabric, open_endpoint)?;
    let record = fabric.record_mut(index);
    let number = open_number(random, record);
    let first = record.ranges[number].0;
    record.ranges = [CLOSED; 6];
    record.ranges[number] = (first, first.checked_add(length - 1)?);
    Some(())
}

fn length_odd(random: &mut Random, fabric: &mut Fabric) -> Option<()> {
    let length = random.pick(&[384, 0x1800, 640, 129, 127, 0x3000, 0x18_0000]);
    new_length(random, fabric, length)
}

fn length_edges(random: &mut Random, fabric: &mut Fabric) -> Option<()> {
    let length = random.pick(&[1, 2, 4, 64, 128, 256, 64]);
    new_length(random, fabric, length)
}

/// Half or all of the address space, with windows to match above it.
fn length_whole(random: &mut Random, fabric: &mut Fabric) -> Option<()> {
    let index = some_open(random, fabric, |record| record.kind == 4)?;
    let range = random.pick(&[(0, u64::MAX), (0, u64::MAX >> 1), (1 << 63, u64::MAX)]);
    let record = fabric.record_mut(index);
    record.ranges = [CLOSED; 6];
    record.ranges[random.index(6)] = range;
    let mut above = record.parent;
    // Another break may have closed a circle, so the way up is bounded.
    for _ in 0..fabric.records.len() {
        let Some(bridge) = fabric.records.get_mut(usize::from(above)) else {
            break;
        };
        bridge.ranges = [CLOSED; 6];
        bridge.ranges[1] = (0, u64::MAX);
        above = bridge.parent;
    }
    Some(())
}

fn misaligned(random: &mut Random, fabric: &mut Fabric) -> Option<()> {
    let index = some_open(random, fabric, open_endpoint)?;
    let record = fabric.record_mut(index);
    let number = open_number(random, record);
    let (first, last) = record.ranges[number];
    let step = random.pick(&[1, 4, 64, last.wrapping_sub(first) / 2 + 1]);
    let shifted = (first.checked_add(step)?, last.checked_add(step)?);
    record.ranges = [CLOSED; 6];
    record.ranges[number] = shifted;
    Some(())
}

fn own_overlap(random: &mut Random, fabric: &mut Fabric) -> Option<()> {
    let index = some_open(random, fabric, |record| {
        record.ranges.iter().any(|&range| range != CLOSED)
    })?;
    let record = fabric.record_mut(index);
    let number = open_number(random, record);
    let other = if record.is_bridge() {
        1 - number.min(1)
    } else {
        (number + 1 + random.index(5)) % 6
    };
    record.ranges[other] = record.ranges[number];
    Some(())
}

fn sibling_overlap(random: &mut Random, fabric: &mut Fabric) -> Option<()> {
    let (index, earlier) = siblings(random, fabric)?;
    let window = random.pick(&earlier.ranges[..2]);
    if window == CLOSED {
        return None;
    }
    let number = random.index(2);
    let record = fabric.record_mut(index);
    record.ranges = [CLOSED; 6];
    record.ranges[number] = window;
    Some(())
}

/// A range beside the window above it.
fn outside_window(random: &mut Random, fabric: &mut Fabric) -> Option<()> {
    let (index, parent) = child(random, fabric)?;
    let window = random.pick(&parent.ranges[..2]);
    let (_, last) = window;
    if window == CLOSED {
        return None;
    }
    let first = last.checked_add(1)?;
    let record = fabric.record_mut(index);
    record.ranges = [CLOSED; 6];
    record.ranges[1] = (first, first.wrapping_add(MIB - 1));
    Some(())
}

/// A range that begins in the window above it and ends outside.
fn over_the_edge(random: &mut Random, fabric: &mut Fabric) -> Option<()> {
    let (index, parent) = child(random, fabric)?;
    let window = random.pick(&parent.ranges[..2]);
    let (first, last) = window;
    if window == CLOSED {
        return None;
    }
    let length = last
        .wrapping_sub(first)
        .checked_add(1)?
        .checked_next_power_of_two()?
        .checked_mul(2)?;
    let range = (first & !(length - 1), first | (length - 1));
    let record = fabric.record_mut(index);
    record.ranges = [CLOSED; 6];
    record.ranges[1] = if record.is_bridge() {
        (first, last.checked_add(MIB)?)
    } else {
        range
    };
    Some(())
}

/// A range over the edge between two touching windows of its parent. The
/// windows are moved together first.
fn two_windows(random: &mut Random, fabric: &mut Fabric) -> Option<()> {
    let (index, parent) = child(random, fabric)?;
    let (first, last) = parent.ranges[0];
    if (first, last) == CLOSED {
        return None;
    }
    // The edge between an even and an odd unit, so that an endpoint's range fits.
    let end = last.checked_add(1)?;
    let edge = if end / MIB % 2 == 1 {
        end
    } else {
        end.checked_sub(MIB)?
    };
    if edge <= first || !(MIB..=1 << 32).contains(&edge) {
        return None;
    }
    let parent_index = fabric.record(index).parent;
    let above = fabric.record_mut(parent_index);
    above.ranges[0] = (first, edge - 1);
    above.ranges[1] = (edge, edge + (MIB - 1));
    let record = fabric.record_mut(index);
    record.ranges = [CLOSED; 6];
    record.ranges[1] = (edge - MIB, edge + (MIB - 1));
    // Only this child, so that nothing else is wrong below the changed windows.
    fabric.records.truncate(usize::from(index) + 1);
    Some(())
}

/// A window at address 0, beside which a closed range stands.
fn low_window(random: &mut Random, fabric: &mut Fabric) -> Option<()> {
    let number = random.index(2);
    let record = some(random, fabric, |record| record.kind == 1)?;
    record.ranges = [CLOSED; 6];
    record.ranges[number] = (0, MIB - 1);
    Some(())
}

fn acs_port(record: &Record) -> bool {
    record.is_port() && record.capability != 0
}

fn capability_bits(random: &mut Random, fabric: &mut Fabric) -> Option<()> {
    let bit = 1 << random.below(8);
    let record = some(random, fabric, acs_port)?;
    record.capability ^= bit;
    record.control &= record.capability;
    Some(())
}

/// A vector size without any bit, or a lone bit.
fn capability_size(random: &mut Random, fabric: &mut Fabric) -> Option<()> {
    let capability = random.pick(&[0x0800, 0x0800, 0xFF00, 0x0801, 0x0802, 0x0080]);
    let record = some(random, fabric, Record::is_port)?;
    record.capability = capability;
    record.control = 0;
    Some(())
}

/// Capabilities that suit a root port, some of them not a kind 3.
fn capability_kind(random: &mut Random, fabric: &mut Fabric) -> Option<()> {
    let lacking = random.pick(&[acs::R | acs::C, acs::R, acs::C, acs::U, acs::T, acs::E]);
    let record = some(random, fabric, Record::is_port)?;
    record.capability = 0x087F & !lacking;
    record.control &= record.capability;
    Some(())
}

fn control_outside(random: &mut Random, fabric: &mut Fabric) -> Option<()> {
    let bit = 1 << random.below(7);
    let lacking = |record: &Record| record.is_port() && record.capability & acs::ALL != acs::ALL;
    let record = some(random, fabric, lacking)?;
    record.control |= bit | acs::ALL & !record.capability;
    Some(())
}

fn control_high(random: &mut Random, fabric: &mut Fabric) -> Option<()> {
    let bit = 0x80 << random.below(9);
    some(random, fabric, Record::is_port)?.control |= bit;
    Some(())
}
