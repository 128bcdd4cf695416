//! Building snapshots and headers field by field.

/// A closed range.
pub const CLOSED: (u64, u64) = (1, 0);
pub const NO_PARENT: u16 = 0xFFFF;

/// The fields of a record, right or wrong.
#[derive(Clone, Debug)]
pub struct Record {
    pub kind: u8,
    pub port_number: u8,
    pub parent: u16,
    pub own_bus: u8,
    pub device_function: u8,
    pub secondary: u8,
    pub subordinate: u8,
    pub capability: u16,
    pub control: u16,
    pub reserved: [u8; 4],
    pub vector: [u8; 32],
    pub ranges: [(u64, u64); 6],
}

impl Record {
    pub fn new(kind: u8, parent: u16) -> Record {
        Record {
            kind,
            port_number: 0,
            parent,
            own_bus: 0,
            device_function: 0,
            secondary: 0,
            subordinate: 0,
            capability: 0,
            control: 0,
            reserved: [0; 4],
            vector: [0; 32],
            ranges: [CLOSED; 6],
        }
    }

    pub fn is_port(&self) -> bool {
        self.kind == 1 || self.kind == 3
    }

    pub fn is_bridge(&self) -> bool {
        self.kind < 4
    }

    pub fn buses(mut self, own: u8, secondary: u8, subordinate: u8) -> Record {
        self.own_bus = own;
        self.secondary = secondary;
        self.subordinate = subordinate;
        self
    }

    /// Port Number and byte 5.
    pub fn numbers(mut self, port_number: u8, device_function: u8) -> Record {
        self.port_number = port_number;
        self.device_function = device_function;
        self
    }

    pub fn acs(mut self, capability: u16, control: u16) -> Record {
        self.capability = capability;
        self.control = control;
        self
    }

    pub fn range(mut self, number: usize, first: u64, last: u64) -> Record {
        self.ranges[number] = (first, last);
        self
    }

    pub fn set_vector_bit(&mut self, number: u8) {
        self.vector[usize::from(number / 8)] |= 1 << (number % 8);
    }

    fn write(&self, bytes: &mut Vec<u8>) {
        bytes.extend_from_slice(&[self.kind, self.port_number]);
        bytes.extend_from_slice(&self.parent.to_le_bytes());
        bytes.extend_from_slice(&[self.own_bus, self.device_function]);
        bytes.extend_from_slice(&[self.secondary, self.subordinate]);
        bytes.extend_from_slice(&self.capability.to_le_bytes());
        bytes.extend_from_slice(&self.control.to_le_bytes());
        bytes.extend_from_slice(&self.reserved);
        bytes.extend_from_slice(&self.vector);
        for (first, last) in self.ranges {
            bytes.extend_from_slice(&first.to_le_bytes());
            bytes.extend_from_slice(&last.to_le_bytes());
        }
    }
}

/// The fields of a snapshot, right or wrong.
#[derive(Clone, Debug)]
pub struct Fabric {
    pub mark: [u8; 3],
    pub flags: u8,
    pub version: u16,
    pub taken: u64,
    pub until: u64,
    pub records: Vec<Record>,
}

impl Fabric {
    pub fn new(flags: u8, records: Vec<Record>) -> Fabric {
        Fabric {
            mark: *b"ACS",
            flags,
            version: 1,
            taken: 1000,
            until: 2000,
            records,
        }
    }

    pub fn bytes(&self) -> Vec<u8> {
        let mut bytes = Vec::with_capacity(24 + 144 * self.records.len());
        bytes.extend_from_slice(&self.mark);
        bytes.push(self.flags);
        bytes.extend_from_slice(&self.version.to_le_bytes());
        bytes.extend_from_slice(&(self.records.len() as u16).to_le_bytes());
        bytes.extend_from_slice(&self.taken.to_le_bytes());
        bytes.extend_from_slice(&self.until.to_le_bytes());
        for record in &self.records {
            record.write(&mut bytes);
        }
        bytes
    }

    /// The records of kinds 1 and 3.
    pub fn ports_mut(&mut self) -> impl Iterator<Item = &mut Record> {
        self.records.iter_mut().filter(|record| record.is_port())
    }

    /// Indexes of the records of a kind.
    pub fn of_kind(&self, kind: u8) -> Vec<u16> {
        self.matching(|record| record.kind == kind)
    }

    pub fn matching(&self, test: impl Fn(&Record) -> bool) -> Vec<u16> {
        let indexes = 0..self.records.len() as u16;
        indexes
            .filter(|&index| test(&self.records[usize::from(index)]))
            .collect()
    }

    pub fn record(&self, index: u16) -> &Record {
        &self.records[usize::from(index)]
    }

    pub fn record_mut(&mut self, index: u16) -> &mut Record {
        &mut self.records[usize::from(index)]
    }
}

/// Fabric F of document 01, with the same Control on all three ports.
pub fn fabric_f(flags: u8, control: u16) -> Fabric {
    let capability = 0x087F;
    Fabric::new(
        flags,
        vec![
            Record::new(1, NO_PARENT)
                .buses(0, 1, 4)
                .numbers(0, 8)
                .acs(capability, control)
                .range(0, 0x8000_0000, 0x803F_FFFF),
            Record::new(2, 0)
                .buses(1, 2, 4)
                .range(0, 0x8000_0000, 0x803F_FFFF),
            Record::new(3, 1)
                .buses(2, 3, 3)
                .numbers(1, 0)
                .acs(capability, control)
                .range(0, 0x8000_0000, 0x800F_FFFF),
            Record::new(3, 1)
                .buses(2, 4, 4)
                .numbers(2, 8)
                .acs(capability, control)
                .range(0, 0x8010_0000, 0x801F_FFFF),
            Record::new(4, 2)
                .buses(3, 0, 0)
                .range(0, 0x8000_0000, 0x8000_0FFF),
            Record::new(4, 3)
                .buses(4, 0, 0)
                .range(0, 0x8010_0000, 0x8010_0FFF),
        ],
    )
}

/// The fabric with this Capability at all ports.
pub fn with_capability(mut fabric: Fabric, capability: u16) -> Fabric {
    for port in fabric.ports_mut() {
        port.capability = capability;
    }
    fabric
}

/// The fabric with this vector bit set at all ports.
pub fn with_bit(mut fabric: Fabric, number: u8) -> Fabric {
    for port in fabric.ports_mut() {
        port.set_vector_bit(number);
    }
    fabric
}

pub const READ: u8 = 0x00;
pub const WRITE: u8 = 0x40;
pub const LONG_READ: u8 = 0x20;
pub const LONG_WRITE: u8 = 0x60;
pub const COMPLETION: u8 = 0x0A;
pub const DATA_COMPLETION: u8 = 0x4A;

/// A memory request; its kind decides how long the header is.
pub fn request(kind: u8, requester: u16, at: u8, address: u64, doublewords: u16) -> Vec<u8> {
    let mut header = vec![
        kind,
        0,
        at << 2 | (doublewords >> 8 & 3) as u8,
        doublewords as u8,
    ];
    header.extend_from_slice(&requester.to_be_bytes());
    header.extend_from_slice(&[0, 0x0F]);
    if kind & 0x20 == 0 {
        header.extend_from_slice(&(address as u32).to_be_bytes());
    } else {
        header.extend_from_slice(&address.to_be_bytes());
    }
    header
}

/// A completion to an ID.
pub fn completion(kind: u8, id: u16, relaxed_ordering: bool) -> Vec<u8> {
    let mut header = vec![kind, 0, u8::from(relaxed_ordering) << 5, 1, 0, 0, 0, 4];
    header.extend_from_slice(&id.to_be_bytes());
    header.extend_from_slice(&[0, 0]);
    header
}
