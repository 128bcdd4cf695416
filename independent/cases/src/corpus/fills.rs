//! The corpus' fills. Images are large, so each has something to say of the list
//! and of the windows.

use crate::images::{bridge, longest_list, Image, ACS, LAST, START};
use crate::stream::{fill_item, FILL};

/// The items of fill, and those that ask no call.
pub fn items() -> Vec<Vec<u8>> {
    let mut fills = Fills { items: Vec::new() };
    fills.plain();
    fills.next_offsets();
    fills.loops();
    fills.structures();
    fills.vectors_and_windows();
    fills.ends();
    fills.lengths();
    fills.badly_made();
    fills.items
}

struct Fills {
    items: Vec<Vec<u8>>,
}

/// A record before the call: no byte is 0, nor like the one before it.
fn record() -> Vec<u8> {
    (0..144).map(|place| 1 + (place * 59 % 251) as u8).collect()
}

/// Base and limit of both windows, and the upper halves.
struct Windows {
    memory: (u16, u16),
    prefetchable: (u16, u16),
    upper: (u32, u32),
}

impl Windows {
    const fn new(memory: (u16, u16), prefetchable: (u16, u16), upper: (u32, u32)) -> Windows {
        Windows {
            memory,
            prefetchable,
            upper,
        }
    }

    fn put(&self, image: Image) -> Image {
        image
            .memory(self.memory.0, self.memory.1)
            .prefetchable(self.prefetchable.0, self.prefetchable.1)
            .upper_halves(self.upper.0, self.upper.1)
    }
}

const WINDOWS: &[Windows] = &[
    // Base = limit; upper halves that count, and that don't.
    Windows::new((0x8000, 0x8000), (0x1001, 0x1001), (7, 7)),
    Windows::new((0x8001, 0x8001), (0x1000, 0x1001), (9, 7)),
    // The low four bits of memory don't count; of the base, 2 and 8 do.
    Windows::new((0x800F, 0x8000), (0x1002, 0x1000), (7, 0x8000_0001)),
    Windows::new((0x8005, 0x800A), (0x1008, 0x1005), (0, 7)),
    // Base above limit by 1 MiB, and by the upper half only.
    Windows::new((0x8010, 0x800F), (0x1001, 0x2001), (0x8000_0000, 7)),
    // By the lower half, but not as a whole; then with no upper halves.
    Windows::new((0x0000, 0xFFFF), (0xFFF1, 0x0001), (1, 2)),
    Windows::new((0xFFF0, 0xFFF0), (0x1010, 0x100F), (7, 9)),
    // All that there is, and the last MiB.
    Windows::new((0x0000, 0xFFF0), (0x000F, 0xFFFF), (0, u32::MAX)),
    Windows::new((0x0010, 0x0000), (0xFFF1, 0xFFF0), (u32::MAX, u32::MAX)),
];

impl Fills {
    fn ask(&mut self, image: &Image) {
        self.items.push(fill_item(&image.bytes, &record()));
    }

    /// A bridge, and images in which all bytes are the same.
    fn plain(&mut self) {
        self.ask(&bridge());
        self.ask(&Image::filled(0x00));
        self.ask(&Image::filled(0xFF));
        self.items.push(fill_item(&bridge().bytes, &[0; 144]));
    }

    /// Next offsets that are bad, though the list would go on from there, and the
    /// last that isn't.
    fn next_offsets(&mut self) {
        self.ask(&bridge().header(START, 1, 1, 0xFFF));
        for next in [0x001, 0x0FC, 0x106] {
            let image = bridge().header(next, 1, 1, 0x140);
            self.ask(&image.header(START, 1, 1, next));
        }
        self.ask(&bridge().header(0x140, 0, 0, 0x301).acs(0x301, 0x1F, 0));
        let image = bridge().list(&[START, 0x140, LAST], 0x104);
        self.ask(&image.acs(0x104, 0, 0));
    }

    fn loops(&mut self) {
        self.ask(&bridge().list(&[START], START));
        let three = [START, 0x140, 0x120];
        for back in three {
            self.ask(&bridge().list(&three, back));
        }
        // The longest list, and one as long that leads back to its middle.
        self.ask(&longest_list());
        self.ask(&longest_list().header(LAST, 1, 1, 0x800));
    }

    /// Which structure is ACS.
    fn structures(&mut self) {
        // A list without ACS beside a structure that it doesn't lead to.
        self.ask(&bridge().header(0x140, 0x000C, 1, 0));
        // IDs that are nearly ACS, of any version.
        let image = bridge().header(START, 0x010D, 1, 0x140);
        self.ask(&image.header(0x140, 0x800D, 2, 0x200));
        // ACS first, and what its next offset says.
        self.ask(
            &bridge()
                .acs(START, 0x001F, 0x0C)
                .header(START, ACS, 1, 0xFFF),
        );
        // Two of them: the walk stops at the first.
        let two = bridge().acs(0x140, 0x005F, 0x0013);
        self.ask(&two.header(0x140, ACS, 1, 0x200));
        // Other versions.
        for version in [0, 2, 9] {
            self.ask(&bridge().header(0x200, ACS, version, 0));
        }
    }

    /// Vectors of every edge of a doubleword, each with windows of its own.
    fn vectors_and_windows(&mut self) {
        let vectors = [0x00, 0x01, 0x20, 0x21, 0xE0, 0xFF]
            .map(|size| bridge().acs(0x200, size << 8 | 0x7F, 0x0037));
        // All bits, reserved ones too; without E in the Capability; without V and B.
        let others = [
            bridge().acs(0x200, 0x21FF, 0xFFFF).vector(0x200, 0xFF),
            bridge().acs(0x200, 0x21DF, 0xFFFF),
            bridge().acs(0x200, 0x085C, 0x0020),
        ];
        let images: Vec<Image> = vectors.into_iter().chain(others).collect();
        assert_eq!(images.len(), WINDOWS.len());
        for (image, windows) in images.into_iter().zip(WINDOWS) {
            self.ask(&windows.put(image));
        }
    }

    /// Structures that end with the image, and that run past it.
    fn ends(&mut self) {
        for (offset, capability) in [
            (0xFF8, 0x005F),
            (0xFF8, 0x017F),
            (0xFF4, 0x207F),
            (0xFF4, 0x217F),
            (0xFD8, 0x007F),
            (0xFDC, 0x007F),
            (LAST, 0x0000),
        ] {
            let list = bridge().list(&[START, 0x140], offset);
            self.ask(&list.acs(offset, capability, 0x11));
        }
    }

    /// Lengths of image and record, with a list that is right or bad.
    fn lengths(&mut self) {
        let right = bridge().bytes;
        let bad = bridge().header(START, 1, 1, 0xFFF).bytes;
        let record = record();
        let longer = |bytes: &[u8]| [bytes, &[0x11]].concat();
        self.items.push(fill_item(&right[..4095], &record));
        self.items.push(fill_item(&longer(&right), &record));
        self.items.push(fill_item(&bad[..4095], &record));
        self.items.push(fill_item(&right, &record[..143]));
        self.items.push(fill_item(&right, &longer(&record)));
        self.items.push(fill_item(&bad, &record[..143]));
        for (image, record) in [(0, 144), (1, 0), (0x100, 145), (0, 0), (144, 512)] {
            self.items
                .push(fill_item(&right[..image], &right[..record]));
        }
    }

    /// Items that ask no call, or whose lengths don't meet their end.
    fn badly_made(&mut self) {
        self.items.push(Vec::new());
        let item = fill_item(&[1, 2, 3], &[4, 5]);
        for call in [0, 1, 3, 4, 0x20, 0x82, 0xFF] {
            self.items.push([&[call], &item[1..]].concat());
        }
        let cut = (1..item.len()).map(|length| item[..length].to_vec());
        self.items.extend(cut);
        self.items.push([&item[..], &[0]].concat());
        self.items.push(item.clone());
        // Lengths up to the last, of the image and of the record.
        for place in [1, 2, 4, 8, 9, 11] {
            for value in [0x00, 0x01, 0x80, 0xFF] {
                let mut wrong = item.clone();
                wrong[place] = value;
                self.items.push(wrong);
            }
        }
        self.items.push([&[FILL][..], &[0xFF; 8]].concat());
    }
}
