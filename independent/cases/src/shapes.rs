//! Random snapshots that keep the record rules, and the extreme ones.

use crate::fabric::{with_capability, Fabric, Record, CLOSED, NO_PARENT};
use crate::random::Random;
use model::acs;

const MIB: u64 = 1 << 20;
/// 2^32 and the top of the address space, counted in windows of 2^20 bytes.
const FOUR_GIB_UNITS: u64 = 1 << 12;
const TOP_UNIT: u64 = (1 << 44) - 1;
const MOST_BRIDGES: usize = 255;
/// All that a kind 3 with ACS must have.
const DOWNSTREAM_BITS: u16 = acs::V | acs::B | acs::R | acs::C | acs::U | acs::T;

/// First and last unit of a window.
type Units = (u64, u64);

/// A random fabric with about so many records, all of them right.
pub fn random_fabric(random: &mut Random, records: usize) -> Fabric {
    let mut tree = Tree::grow(random, records);
    tree.reorder(random);
    tree.number(random);
    tree.lay_buses(random);
    tree.lay_windows(random);
    tree.set_controls(random);
    let mut fabric = Fabric::new(random.below(4) as u8, tree.records);
    set_times(random, &mut fabric);
    fabric
}

/// A random fabric at the upper end of the vectors: Port Numbers are counted from
/// 255 down, the vectors' bits with them, and the size field is 00h, which with E
/// is 256 bits, or FFh or FEh. E is on wherever it can be.
pub fn random_full(random: &mut Random, records: usize) -> Fabric {
    let mut fabric = random_fabric(random, records);
    for port in fabric.ports_mut() {
        port.port_number = 255 - port.port_number;
        port.vector.reverse();
        port.vector = port.vector.map(u8::reverse_bits);
        if port.capability != 0 {
            let size = random.pick(&[0x00, 0x00, 0xFF, 0xFE]);
            port.capability = size << 8 | port.capability & 0xFF;
            port.control |= port.capability & acs::E;
        }
    }
    fabric
}

fn set_times(random: &mut Random, fabric: &mut Fabric) {
    fabric.taken = match random.below(6) {
        0 => 0,
        1 => random.word(),
        _ => random.below(1 << 33),
    };
    fabric.until = match random.below(6) {
        0 => fabric.taken,
        1 => u64::MAX,
        _ => fabric.taken.saturating_add(random.below(100_000)),
    };
}

/// A tree of records under construction.
struct Tree {
    records: Vec<Record>,
    children: Vec<Vec<usize>>,
    roots: Vec<usize>,
}

impl Tree {
    fn add(&mut self, kind: u8, parent: Option<usize>) -> usize {
        let index = self.records.len();
        let field = parent.map_or(NO_PARENT, |parent| parent as u16);
        self.records.push(Record::new(kind, field));
        self.children.push(Vec::new());
        match parent {
            Some(parent) => self.children[parent].push(index),
            None => self.roots.push(index),
        }
        index
    }

    fn bridges(&self) -> usize {
        self.records
            .iter()
            .filter(|record| record.is_bridge())
            .count()
    }

    /// Grows a tree: kinds and parents only.
    fn grow(random: &mut Random, count: usize) -> Tree {
        let mut tree = Tree {
            records: Vec::new(),
            children: Vec::new(),
            roots: Vec::new(),
        };
        let most_roots = if random.one_in(3) {
            count.clamp(1, 8)
        } else {
            2
        };
        let roots = 1 + random.index(most_roots);
        let deep = random.one_in(4);
        let mut free: Vec<usize> = (0..roots.min(count)).map(|_| tree.add(1, None)).collect();
        while tree.records.len() < count {
            let Some(port) = take_port(random, &mut free, deep) else {
                if tree.bridges() >= MOST_BRIDGES {
                    break;
                }
                free.extend(tree.another_port(random));
                continue;
            };
            let room = count - tree.records.len();
            if random.one_in(12) {
                continue; // stays without a child
            }
            let switch_wanted = if deep {
                !random.one_in(6)
            } else {
                random.one_in(3)
            };
            if room >= 2 && switch_wanted && tree.bridges() + 2 <= MOST_BRIDGES {
                free.extend(tree.add_switch(random, port, room - 1, deep));
            } else {
                tree.add(4, Some(port));
            }
        }
        tree
    }

    fn add_switch(
        &mut self,
        random: &mut Random,
        port: usize,
        room: usize,
        deep: bool,
    ) -> Vec<usize> {
        let upstream = self.add(2, Some(port));
        let most = if random.one_in(10) {
            64
        } else if deep {
            2
        } else {
            4
        };
        let most = most.min(room).min(MOST_BRIDGES - self.bridges());
        let ports = 1 + random.index(most);
        (0..ports).map(|_| self.add(3, Some(upstream))).collect()
    }

    /// A further port, when every port has its child: beside others or a root port.
    fn another_port(&mut self, random: &mut Random) -> Option<usize> {
        let upstream: Vec<usize> = (0..self.records.len())
            .filter(|&index| self.records[index].kind == 2)
            .collect();
        if upstream.is_empty() || random.one_in(3) {
            return Some(self.add(1, None));
        }
        let parent = random.pick(&upstream);
        Some(self.add(3, Some(parent)))
    }

    /// Puts the records in another order in which parents come first.
    fn reorder(&mut self, random: &mut Random) {
        let mut ready = self.roots.clone();
        let mut place = vec![0; self.records.len()];
        let mut order = Vec::with_capacity(self.records.len());
        let keep = random.one_in(3);
        while !ready.is_empty() {
            let next = ready.remove(if keep { 0 } else { random.index(ready.len()) });
            place[next] = order.len();
            order.push(next);
            ready.extend(&self.children[next]);
        }
        let moved = |list: &Vec<usize>| list.iter().map(|&index| place[index]).collect();
        let records = order.iter().map(|&old| {
            let mut record = self.records[old].clone();
            if record.parent != NO_PARENT {
                record.parent = place[usize::from(record.parent)] as u16;
            }
            record
        });
        let records = records.collect();
        let children = order
            .iter()
            .map(|&old| moved(&self.children[old]))
            .collect();
        self.roots = moved(&self.roots);
        self.records = records;
        self.children = children;
    }

    /// The groups of sibling ports.
    fn port_groups(&self) -> Vec<Vec<usize>> {
        let mut groups = vec![self.roots.clone()];
        for (index, children) in self.children.iter().enumerate() {
            if self.records[index].kind == 2 {
                groups.push(children.clone());
            }
        }
        groups
    }

    /// Port Numbers and byte 5, different among siblings.
    fn number(&mut self, random: &mut Random) {
        for group in self.port_groups() {
            let numbers = distinct_bytes(random, group.len());
            let places = distinct_bytes(random, group.len());
            for ((&port, number), place) in group.iter().zip(numbers).zip(places) {
                self.records[port].port_number = number;
                self.records[port].device_function = place;
            }
        }
    }

    /// Bus numbers, depth first; with gaps where there are buses to spare.
    fn lay_buses(&mut self, random: &mut Random) {
        let mut spare = MOST_BRIDGES - self.bridges();
        if random.one_in(3) {
            spare = 0;
        }
        let mut next = 1;
        let mut roots = self.roots.clone();
        random.shuffle(&mut roots);
        for root in roots {
            self.lay_bus(random, root, 0, &mut next, &mut spare);
        }
    }

    fn lay_bus(
        &mut self,
        random: &mut Random,
        index: usize,
        own: u8,
        next: &mut usize,
        spare: &mut usize,
    ) {
        self.records[index].own_bus = own;
        if self.records[index].kind == 4 {
            return;
        }
        *next += gap(random, spare);
        let secondary = *next as u8;
        *next += 1;
        let mut children = self.children[index].clone();
        random.shuffle(&mut children);
        for child in children {
            self.lay_bus(random, child, secondary, next, spare);
        }
        *next += gap(random, spare);
        self.records[index].secondary = secondary;
        self.records[index].subordinate = (*next - 1) as u8;
    }

    fn lay_windows(&mut self, random: &mut Random) {
        let regions = random_regions(random);
        let roots = self.roots.clone();
        self.share(random, &regions, &roots);
        for index in 0..self.records.len() {
            if self.records[index].kind == 4 {
                let parent = usize::from(self.records[index].parent);
                let windows = self.records[parent].ranges;
                self.records[index].ranges = endpoint_ranges(random, &windows);
            } else {
                let regions: Vec<Units> = open_units(&self.records[index].ranges);
                let children = self.children[index].clone();
                self.share(random, &regions, &children);
            }
        }
    }

    /// Gives parts of the regions to bridges, as memory or prefetchable windows.
    fn share(&mut self, random: &mut Random, regions: &[Units], bridges: &[usize]) {
        for &region in regions {
            let mut takers: Vec<usize> = bridges
                .iter()
                .copied()
                .filter(|_| !random.one_in(8))
                .collect();
            if !bridges.is_empty() && random.one_in(3) {
                takers.push(random.pick(bridges));
            }
            random.shuffle(&mut takers);
            for (taker, (first, last)) in cut(random, region, takers) {
                let record = &mut self.records[taker];
                let low = last < FOUR_GIB_UNITS;
                let [memory, prefetchable, ..] = &mut record.ranges;
                let bytes = (first * MIB, last * MIB + (MIB - 1));
                if low && *memory == CLOSED && (*prefetchable != CLOSED || !random.one_in(4)) {
                    *memory = bytes;
                } else if *prefetchable == CLOSED {
                    *prefetchable = bytes;
                }
            }
        }
    }

    fn set_controls(&mut self, random: &mut Random) {
        let mode = random.below(6);
        for group in self.port_groups() {
            for &port in &group {
                let peer = random.pick(&group);
                let number = self.records[peer].port_number;
                let record = &mut self.records[port];
                record.capability = random_capability(random, record.kind, number);
                record.control = random_control(random, mode) & record.capability;
                record.vector = random_vector(random, number);
            }
        }
    }
}

fn take_port(random: &mut Random, free: &mut Vec<usize>, deep: bool) -> Option<usize> {
    if deep {
        return free.pop();
    }
    if free.is_empty() {
        return None;
    }
    let place = random.index(free.len());
    Some(free.swap_remove(place))
}

fn gap(random: &mut Random, spare: &mut usize) -> usize {
    if *spare == 0 || !random.one_in(3) {
        return 0;
    }
    let gap = 1 + random.index((*spare).min(3));
    *spare -= gap;
    gap
}

/// Different bytes: small and in order, or spread over all values.
fn distinct_bytes(random: &mut Random, count: usize) -> Vec<u8> {
    let mut bytes: Vec<u8> = (0..=255).collect();
    match random.below(4) {
        0 => {}
        1 => {
            // One for each device first, as switches often number their ports.
            bytes = (0..256u32)
                .map(|k| (((k % 32) << 3) | (k / 32)) as u8)
                .collect();
        }
        2 => {
            bytes.truncate(count.clamp(8, 256));
            random.shuffle(&mut bytes);
        }
        _ => random.shuffle(&mut bytes),
    }
    bytes.truncate(count);
    bytes
}

/// The parts of the address space that the root ports share, in units.
fn random_regions(random: &mut Random) -> Vec<Units> {
    match random.below(8) {
        0 => vec![(0x800, 0x80F)],
        1 => vec![(0, FOUR_GIB_UNITS - 1)],
        2 => vec![(0x800, 0xFFF), (0x1000, TOP_UNIT)],
        3 => vec![(0, TOP_UNIT)],
        4 => vec![(0xFF0, 0xFFF), (0x1000, 0x100F)],
        5 => vec![(0, 15), (TOP_UNIT - 15, TOP_UNIT)],
        6 => vec![(0x10, 0x1F), (0x20, 0x2F), (1 << 30, (1 << 40) - 1)],
        _ => vec![(0x900, 0x9FF), (1 << 43, TOP_UNIT)],
    }
}

/// Cuts a region in pieces for its takers, in order, with gaps or without.
fn cut(random: &mut Random, region: Units, mut takers: Vec<usize>) -> Vec<(usize, Units)> {
    let (first, last) = region;
    if takers.len() == 1 && !random.one_in(4) {
        return vec![(takers[0], region)];
    }
    let units = last - first + 1;
    takers.truncate(units.min(1 << 20) as usize);
    let tight = random.coin();
    let mut next = first;
    let mut pieces = Vec::with_capacity(takers.len());
    for (done, &taker) in takers.iter().enumerate() {
        let waiting = (takers.len() - done - 1) as u64;
        let room = last - next + 1 - waiting;
        let fair = room / (waiting + 1);
        let skip = if tight || fair < 2 {
            0
        } else {
            random.below(fair / 2 + 1)
        };
        let room = room - skip;
        let size = match random.below(3) {
            0 => 1,
            1 if waiting == 0 => room,
            _ => random.between(1, (2 * fair).clamp(1, room)),
        };
        next += skip;
        pieces.push((taker, (next, next + size - 1)));
        next += size;
    }
    pieces
}

fn open_units(ranges: &[(u64, u64); 6]) -> Vec<Units> {
    let open = ranges[..2].iter().filter(|&&range| range != CLOSED);
    open.map(|&(first, last)| (first / MIB, last / MIB))
        .collect()
}

/// Up to six ranges of an endpoint inside the windows above it.
fn endpoint_ranges(random: &mut Random, windows: &[(u64, u64); 6]) -> [(u64, u64); 6] {
    let mut ranges = [CLOSED; 6];
    let windows: Vec<(u64, u64)> = windows[..2]
        .iter()
        .copied()
        .filter(|&window| window != CLOSED)
        .collect();
    if windows.is_empty() || random.one_in(16) {
        return ranges;
    }
    let tries = if random.one_in(4) {
        6
    } else {
        1 + random.index(3)
    };
    for _ in 0..tries {
        let window = random.pick(&windows);
        let slot = if random.coin() { 0 } else { random.index(6) };
        if let Some((first, last)) = place_range(random, window) {
            let apart = ranges
                .iter()
                .all(|&(a, b)| (a, b) == CLOSED || b < first || last < a);
            if apart && ranges[slot] == CLOSED {
                ranges[slot] = (first, last);
            }
        }
    }
    ranges
}

/// A power of two in length, aligned, inside the window.
fn place_range(random: &mut Random, (first, last): (u64, u64)) -> Option<(u64, u64)> {
    let largest = (last - first)
        .checked_add(1)
        .map_or(63, |length| length.ilog2());
    let exponent = match random.below(6) {
        0 => 7,
        1 => largest,
        2 => random.between(7, u64::from(largest)) as u32,
        _ => random.between(7, 13) as u32,
    };
    let mask = (1u64 << exponent.min(63)) - 1;
    let lowest = first.checked_add(mask)? & !mask;
    let highest = last.checked_sub(mask)? & !mask;
    if lowest > highest {
        return None;
    }
    let steps = (highest - lowest) >> exponent;
    let step = match random.below(3) {
        0 => 0,
        1 => steps,
        _ => random.between(0, steps),
    };
    let start = lowest + (step << exponent);
    Some((start, start + mask))
}

fn random_capability(random: &mut Random, kind: u8, peer_number: u8) -> u16 {
    if random.one_in(8) {
        return 0;
    }
    let mut bits = if kind == 3 {
        DOWNSTREAM_BITS
    } else {
        acs::V | acs::B
    };
    if kind == 1 && !random.one_in(4) {
        bits |= acs::R | acs::C;
    }
    for optional in [acs::U, acs::E, acs::T] {
        if !random.one_in(4) {
            bits |= optional;
        }
    }
    let size = match random.below(6) {
        0 => 0,
        1 => peer_number,
        // One more than 255 is 256, which is written 00h.
        2 => peer_number.wrapping_add(1),
        3 => 8,
        4 => 255,
        _ => random.byte(),
    };
    bits | u16::from(size) << 8
}

/// Control bits before those that Capability lacks are taken off.
fn random_control(random: &mut Random, mode: u64) -> u16 {
    let any = random.word() as u16 & acs::ALL;
    match mode {
        0 => 0,
        1 => acs::R | acs::C | acs::U,
        2 => acs::R | acs::U | any & (acs::V | acs::B | acs::C | acs::T),
        3 => acs::E | any & !acs::B,
        4 => acs::U | any,
        _ => any,
    }
}

fn random_vector(random: &mut Random, peer_number: u8) -> [u8; 32] {
    match random.below(5) {
        0 => [0; 32],
        1 => [0xFF; 32],
        2 => {
            let mut vector = [0; 32];
            vector[usize::from(peer_number / 8)] = 1 << (peer_number % 8);
            vector
        }
        3 => {
            let mut vector = [0xFF; 32];
            vector[usize::from(peer_number / 8)] &= !(1 << (peer_number % 8));
            vector
        }
        _ => std::array::from_fn(|_| random.byte()),
    }
}

const WINDOW: (u64, u64) = (0x8000_0000, 0x8FFF_FFFF);

/// The deepest tree of so many records (2 to 256): one line of switches with
/// an endpoint at its end, all with the same window and Control.
pub fn chain(records: usize, flags: u8, control: u16) -> Fabric {
    let mut list = Vec::with_capacity(records);
    for index in 0..records - 1 {
        let kind = if index == 0 {
            1
        } else if index % 2 == 1 {
            2
        } else {
            3
        };
        // A switch at the end has no port left for an endpoint.
        if kind == 2 && index + 2 == records {
            break;
        }
        let parent = if index == 0 {
            NO_PARENT
        } else {
            index as u16 - 1
        };
        let mut record = Record::new(kind, parent)
            .buses(index as u8, index as u8 + 1, 255)
            .range(0, WINDOW.0, WINDOW.1);
        if kind != 2 {
            record = record.acs(0x087F, control);
        }
        list.push(record);
    }
    let last = list.len() as u16 - 1;
    let bus = list[usize::from(last)].secondary;
    list.push(
        Record::new(4, last)
            .buses(bus, 0, 0)
            .range(0, WINDOW.0, WINDOW.0 + 0xFFF),
    );
    Fabric::new(flags, list)
}

/// One switch with as many ports as fit in so many records, an endpoint under
/// each: the ports first, then the endpoints.
pub fn wide(records: usize, flags: u8, control: u16) -> Fabric {
    let ports = (records - 2) / 2;
    let last_bus = 2 + ports as u8;
    let mut list = vec![
        Record::new(1, NO_PARENT)
            .buses(0, 1, last_bus)
            .acs(0xFF7F, control)
            .range(0, WINDOW.0, WINDOW.1),
        Record::new(2, 0)
            .buses(1, 2, last_bus)
            .range(0, WINDOW.0, WINDOW.1),
    ];
    for port in 0..ports {
        let first = WINDOW.0 + MIB * port as u64;
        let bus = 3 + port as u8;
        list.push(
            Record::new(3, 1)
                .buses(2, bus, bus)
                .numbers(port as u8 + 1, port as u8)
                .acs(0xFF7F, control)
                .range(0, first, first + MIB - 1),
        );
    }
    for port in 0..ports {
        let first = WINDOW.0 + MIB * port as u64;
        list.push(
            Record::new(4, 2 + port as u16)
                .buses(3 + port as u8, 0, 0)
                .range(0, first, first + 0xFFF),
        );
    }
    Fabric::new(flags, list)
}

/// The same switch with vectors of 256 bits, and Port Number 255 at its last port.
pub fn wide_full(records: usize, flags: u8, control: u16) -> Fabric {
    let mut fabric = with_capability(wide(records, flags, control), 0x007F);
    let ports = fabric.of_kind(3);
    fabric.record_mut(ports[ports.len() - 1]).port_number = 255;
    fabric
}

/// So many root ports (1 to 255), each on its own bus with its own window.
pub fn roots(ports: usize, flags: u8, control: u16) -> Fabric {
    let list = (0..ports).map(|port| {
        let first = MIB * port as u64;
        Record::new(1, NO_PARENT)
            .buses(0, 1 + port as u8, 1 + port as u8)
            .numbers(port as u8, port as u8)
            .acs(0xFF7F, control)
            .range(0, first, first + MIB - 1)
    });
    Fabric::new(flags, list.collect())
}

/// Adds an endpoint with one 4 KiB range under each of the first ports.
pub fn with_endpoints(mut fabric: Fabric, count: usize) -> Fabric {
    for port in 0..count {
        let above = fabric.records[port].clone();
        let first = above.ranges[0].0;
        fabric.records.push(
            Record::new(4, port as u16)
                .buses(above.secondary, 0, 0)
                .range(0, first, first + 0xFFF),
        );
    }
    fabric
}

/// So many root ports with a switch each, and so many slots on each switch with
/// an endpoint in each: `switches * (2 + 2 * slots)` records, in the order in
/// which they are found from the top, depth first.
pub fn slots(switches: usize, slots: usize, flags: u8, control: u16) -> Fabric {
    let mut list = Vec::new();
    for number in 0..switches {
        add_switch(&mut list, number, slots, control);
    }
    Fabric::new(flags, list)
}

/// A root port, its switch, and the slots with their endpoints.
fn add_switch(list: &mut Vec<Record>, number: usize, slots: usize, control: u16) {
    let buses = 2 + slots;
    let bus = (1 + buses * number) as u8;
    let last_bus = bus + (buses - 1) as u8;
    let first = WINDOW.0 + MIB * (slots * number) as u64;
    let last = first + (MIB * slots as u64 - 1);
    let root_port = list.len() as u16;
    list.push(
        Record::new(1, NO_PARENT)
            .buses(0, bus, last_bus)
            .numbers(number as u8, number as u8)
            .acs(0xFF7F, control)
            .range(0, first, last),
    );
    list.push(
        Record::new(2, root_port)
            .buses(bus, bus + 1, last_bus)
            .range(0, first, last),
    );
    for slot in 0..slots {
        let first = first + MIB * slot as u64;
        let slot_bus = bus + 2 + slot as u8;
        let port = list.len() as u16;
        list.push(
            Record::new(3, root_port + 1)
                .buses(bus + 1, slot_bus, slot_bus)
                .numbers(slot as u8, slot as u8)
                .acs(0xFF7F, control)
                .range(0, first, first + (MIB - 1)),
        );
        list.push(
            Record::new(4, port)
                .buses(slot_bus, 0, 0)
                .range(0, first, first + 0xFFF),
        );
    }
}

/// A comb: switches below each other, as many as fit in so many records (of 5 at
/// least), each with an endpoint under its first port and the next switch under
/// its second; under the last one's second port there is another endpoint.
pub fn comb(records: usize, flags: u8, control: u16) -> Fabric {
    let switches = (records - 2) / 4;
    // Each level has a bus for the switch, one for each port, and what is below.
    let last_bus = (1 + 3 * switches) as u8;
    let mut list = vec![Record::new(1, NO_PARENT)
        .buses(0, 1, last_bus)
        .acs(0xFF7F, control)
        .range(0, WINDOW.0, WINDOW.1)];
    for level in 0..switches {
        let port = list.len() as u16 - 1;
        let bus = list[usize::from(port)].secondary;
        let first = WINDOW.0 + MIB * level as u64;
        let upstream = list.len() as u16;
        list.push(
            Record::new(2, port)
                .buses(bus, bus + 1, last_bus)
                .range(0, first, WINDOW.1),
        );
        list.push(
            Record::new(3, upstream)
                .buses(bus + 1, bus + 2, bus + 2)
                .numbers(0, 0)
                .acs(0xFF7F, control)
                .range(0, first, first + (MIB - 1)),
        );
        list.push(
            Record::new(4, upstream + 1)
                .buses(bus + 2, 0, 0)
                .range(0, first, first + 0xFFF),
        );
        list.push(
            Record::new(3, upstream)
                .buses(bus + 1, bus + 3, last_bus)
                .numbers(1, 8)
                .acs(0xFF7F, control)
                .range(0, first + MIB, WINDOW.1),
        );
    }
    let port = list.len() as u16 - 1;
    let above = list[usize::from(port)].clone();
    let first = above.ranges[0].0;
    list.push(
        Record::new(4, port)
            .buses(above.secondary, 0, 0)
            .range(0, first, first + 0xFFF),
    );
    Fabric::new(flags, list)
}

/// The same fabric level by level: root ports, switches, their ports, endpoints.
pub fn by_kind(fabric: Fabric) -> Fabric {
    let mut order: Vec<usize> = (0..fabric.records.len()).collect();
    order.sort_by_key(|&index| fabric.records[index].kind);
    reordered(fabric, &order)
}

/// The same, with the records of each kind in another order.
pub fn shuffled(fabric: Fabric, seed: u64) -> Fabric {
    let mut order: Vec<usize> = (0..fabric.records.len()).collect();
    Random::new(seed).shuffle(&mut order);
    order.sort_by_key(|&index| fabric.records[index].kind);
    reordered(fabric, &order)
}

/// The records in another order, in which parents still come first.
fn reordered(mut fabric: Fabric, order: &[usize]) -> Fabric {
    let mut place = vec![0; order.len()];
    for (new, &old) in order.iter().enumerate() {
        place[old] = new as u16;
    }
    let moved = order.iter().map(|&old| {
        let mut record = fabric.records[old].clone();
        if record.parent != NO_PARENT {
            record.parent = place[usize::from(record.parent)];
        }
        record
    });
    fabric.records = moved.collect();
    fabric
}
