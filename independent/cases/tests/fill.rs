//! Request 2/13 of document 02, worked by hand: what of an image goes where in a
//! record, and which images are refused.

use cases::images::{bridge, longest_list, Image, ACS, LAST, MOST_HEADERS, START};
use model::{fill, Word, IMAGE};

/// A record's bytes before the call.
const BEFORE: u8 = 0xA5;

/// The answer word, and the record after it.
fn filled(image: &Image) -> (u64, Vec<u8>) {
    let mut record = vec![BEFORE; 144];
    let word = fill(&image.bytes, &mut record);
    (word, record)
}

/// A refusal's word, when the record has stayed as it was.
fn expect_refusal(number: u64, image: &[u8], record_length: usize) {
    let mut record = vec![BEFORE; record_length];
    let word = fill(image, &mut record);
    assert_eq!(word, 6 | number << 8, "{:?}", Word(word));
    assert!(record.iter().all(|&byte| byte == BEFORE));
}

fn expect_nine(image: Image) {
    expect_refusal(9, &image.bytes, 144);
}

fn expect_part(image: &Image, offset: u64, length: u64) {
    assert_eq!(filled(image).0, offset << 16 | length << 32);
}

/// First and last address of range 0 or 1.
fn range(image: &Image, number: usize) -> (u64, u64) {
    let (_, record) = filled(image);
    let at = |place: usize| u64::from_le_bytes(record[place..place + 8].try_into().unwrap());
    (at(48 + 16 * number), at(56 + 16 * number))
}

fn vector(image: &Image) -> Vec<u8> {
    filled(image).1[16..48].to_vec()
}

/// These bytes, and zeros up to 32.
fn padded(bytes: &[u8]) -> Vec<u8> {
    let mut vector = bytes.to_vec();
    vector.resize(32, 0);
    vector
}

#[test]
fn a_bridge() {
    let image = bridge();
    let (word, record) = filled(&image);
    assert_eq!(word, 0x0000_000C_0200_0000);
    let mut expected = vec![BEFORE; 144];
    expected[4] = 2;
    (expected[6], expected[7]) = (3, 7);
    expected[8..12].copy_from_slice(&[0x7F, 0x08, 0x17, 0x00]);
    expected[16..48].copy_from_slice(&padded(&image.bytes[0x208..0x20C]));
    expected[48..56].copy_from_slice(&0x8000_0000_u64.to_le_bytes());
    expected[56..64].copy_from_slice(&0x813F_FFFF_u64.to_le_bytes());
    expected[64..72].copy_from_slice(&0x12_4000_0000_u64.to_le_bytes());
    expected[72..80].copy_from_slice(&0x34_5FFF_FFFF_u64.to_le_bytes());
    assert_eq!(record, expected);
}

#[test]
fn other_record_bytes_stay() {
    for before in [0x00, 0x5A, 0xFF] {
        let mut record = vec![before; 144];
        fill(&bridge().bytes, &mut record);
        for place in (0..4).chain([5]).chain(12..16).chain(80..144) {
            assert_eq!(record[place], before, "byte {place}");
        }
    }
}

#[test]
fn lengths_are_tested_before_the_list() {
    let right = bridge().bytes;
    let bad = bridge().header(START, 1, 1, 0xFFF).bytes;
    for image in [right, bad] {
        for length in [0, 1, 256, 4092, 4095] {
            expect_refusal(8, &image[..length], 144);
        }
        expect_refusal(8, &[&image[..], &[0]].concat(), 144);
        expect_refusal(8, &[&image[..], &image[..]].concat(), 144);
        for length in [0, 1, 80, 143, 145, 288] {
            expect_refusal(8, &image, length);
        }
        expect_refusal(8, &image[..4095], 143);
    }
}

#[test]
fn buses_are_not_tested() {
    let (_, record) = filled(&bridge().buses(9, 5, 0));
    assert_eq!((record[4], record[6], record[7]), (9, 5, 0));
    // Byte 1Bh is the latency timer.
    let mut image = bridge();
    image.bytes[0x1B] = 0x77;
    assert_eq!(filled(&image), filled(&bridge()));
}

#[test]
fn memory_windows() {
    let memory = |base, limit| range(&bridge().memory(base, limit), 0);
    assert_eq!(memory(0x0000, 0x0000), (0, 0xF_FFFF));
    assert_eq!(memory(0x8000, 0x8000), (0x8000_0000, 0x800F_FFFF));
    assert_eq!(memory(0x0000, 0xFFF0), (0, 0xFFFF_FFFF));
    assert_eq!(memory(0xFFF0, 0xFFF0), (0xFFF0_0000, 0xFFFF_FFFF));
    // The low four bits aren't looked at, not even where they are all that differs.
    assert_eq!(memory(0x800F, 0x8010), (0x8000_0000, 0x801F_FFFF));
    assert_eq!(memory(0x800F, 0x8000), (0x8000_0000, 0x800F_FFFF));
    assert_eq!(memory(0x8001, 0x800F), (0x8000_0000, 0x800F_FFFF));
    // A base above its limit is a closed range.
    assert_eq!(memory(0x8010, 0x8000), (1, 0));
    assert_eq!(memory(0x8010, 0x800F), (1, 0));
    assert_eq!(memory(0xFFF0, 0x0000), (1, 0));
}

#[test]
fn memory_windows_have_no_upper_halves() {
    // With 1 in the base's low four bits, as only a prefetchable one may have it.
    let image = bridge().memory(0x8001, 0x8001).upper_halves(0xFFFF_FFFF, 0);
    assert_eq!(range(&image, 0), (0x8000_0000, 0x800F_FFFF));
    assert_eq!(range(&image, 1), (1, 0));
}

#[test]
fn prefetchable_windows() {
    let with = |base, limit, upper_base, upper_limit| {
        let image = bridge().prefetchable(base, limit);
        range(&image.upper_halves(upper_base, upper_limit), 1)
    };
    // The base's low four bits are 0: the upper halves count as 0.
    assert_eq!(with(0x1000, 0x1000, 7, 7), (0x1000_0000, 0x100F_FFFF));
    assert_eq!(with(0x1000, 0x1001, 9, 7), (0x1000_0000, 0x100F_FFFF));
    assert_eq!(with(0x1010, 0x1001, 7, 9), (1, 0));
    // They aren't: both count, whatever the limit's low four bits.
    for bits in 1..=0xF {
        for limit in [0x1000, 0x1001, 0x100F] {
            let base = 0x1000 | bits;
            let window = (0x7_1000_0000, 0x7_100F_FFFF);
            assert_eq!(with(base, limit, 7, 7), window);
            assert_eq!(with(base, limit, 0, 0), (0x1000_0000, 0x100F_FFFF));
            assert_eq!(with(base, limit, 0, 1), (0x1000_0000, 0x1_100F_FFFF));
            assert_eq!(with(base, limit, 1, 0), (1, 0));
        }
    }
    // Base above limit by the lower half, but not as a whole.
    let high = (0x1_FFF0_0000, 0x2_000F_FFFF);
    assert_eq!(with(0xFFF1, 0x0001, 1, 2), high);
    let all = (0, u64::MAX);
    assert_eq!(with(0x0001, 0xFFF1, 0, 0xFFFF_FFFF), all);
    let top = (0xFFFF_FFFF_FFF0_0000, u64::MAX);
    assert_eq!(with(0xFFF1, 0xFFF1, 0xFFFF_FFFF, 0xFFFF_FFFF), top);
}

#[test]
fn lists_without_acs() {
    // All zeros are a header that ends the list; both windows are 1 MiB at 0.
    let (word, record) = filled(&Image::filled(0));
    assert_eq!(word, 0);
    let mut expected = vec![BEFORE; 144];
    (expected[4], expected[6], expected[7]) = (0, 0, 0);
    expected[8..12].fill(0);
    expected[16..48].fill(0);
    for window in [48, 64] {
        expected[window..window + 8].fill(0);
        expected[window + 8..window + 16].copy_from_slice(&0xF_FFFF_u64.to_le_bytes());
    }
    assert_eq!(record, expected);
    // Other lists that end, one of them over the last place for a header.
    for offsets in [&[0x100][..], &[0x100, 0x104], &[0x100, LAST, 0x800, 0x104]] {
        let (word, record) = filled(&bridge().list(offsets, 0));
        assert_eq!(word, 0);
        assert!(record[8..12]
            .iter()
            .chain(&record[16..48])
            .all(|&byte| byte == 0));
    }
}

#[test]
fn only_000d_is_acs() {
    for id in [0x0000, 0x000C, 0x000E, 0x010D, 0x0D00, 0x800D, 0xFFFF] {
        for version in [0, 1, 2, 15] {
            let image = bridge().header(0x200, id, version, 0);
            expect_part(&image, 0, 0);
        }
    }
    // ID and version of others don't matter on the way.
    for (id, version) in [(0, 0), (0x000C, 2), (0x00D0, 15), (0xFFFF, 1)] {
        let image = bridge().header(START, id, version, 0x140);
        expect_part(&image, 0x200, 12);
    }
}

#[test]
fn the_walk_stops_at_the_first_acs() {
    expect_part(&bridge().acs(START, 0x001F, 0), 0x100, 8);
    let two = bridge().header(0x140, 1, 1, 0x300).acs(0x300, 0x5F, 0x12);
    expect_part(&two.clone().header(0x300, ACS, 1, 0x200), 0x300, 8);
    assert_eq!(filled(&two).1[8..12], [0x5F, 0x00, 0x12, 0x00]);
    // What its own next offset says isn't looked at.
    for next in [0, 1, 0xFC, 0x100, 0x140, 0x200, 0x204, 0xFFF] {
        expect_part(&bridge().header(0x200, ACS, 1, next), 0x200, 12);
    }
    // An ACS structure that the list doesn't lead to.
    expect_part(&bridge().header(0x140, 1, 1, 0), 0, 0);
}

#[test]
fn bad_next_offsets() {
    for next in [
        1, 2, 3, 4, 8, 0x40, 0x80, 0xFC, 0xFD, 0xFF, 0x101, 0x102, 0x103, 0x106, 0x7FE, 0xFFD,
        0xFFE, 0xFFF,
    ] {
        expect_nine(bridge().header(START, 1, 1, next));
        expect_nine(bridge().header(0x140, 1, 1, next));
    }
    // All ones: the next offset is FFFh.
    expect_nine(Image::filled(0xFF));
    // The first and the last place are right.
    expect_part(&bridge().list(&[0x100, 0x104], 0), 0, 0);
    expect_part(&bridge().list(&[0x100, LAST], 0), 0, 0);
}

#[test]
fn loops() {
    expect_nine(bridge().list(&[0x100], 0x100));
    expect_nine(bridge().list(&[0x100, 0x140], 0x140));
    expect_nine(bridge().list(&[0x100, 0x140], 0x100));
    let three = [0x100, 0x180, 0x140, 0x900];
    for back in three {
        expect_nine(bridge().list(&three, back));
    }
    // Going back in the image is no loop, nor is a place beside a visited one.
    let beside = [&three[..], &[0x104]].concat();
    expect_part(&bridge().list(&beside, 0), 0, 0);
}

#[test]
fn the_longest_list() {
    assert_eq!(MOST_HEADERS, 960);
    let image = longest_list();
    expect_part(&image, 0x200, 8);
    assert_eq!(filled(&image).1[8..12], [0x03, 0x00, 0x81, 0x20]);
    let offsets: Vec<u16> = (START..=LAST).step_by(4).collect();
    expect_part(&bridge().list(&offsets, 0), 0, 0);
    let backwards: Vec<u16> = [START]
        .into_iter()
        .chain((0x104..=LAST).rev().step_by(4))
        .collect();
    expect_part(&bridge().list(&backwards, 0), 0, 0);
    for back in [START, 0x104, 0x800, LAST] {
        expect_nine(bridge().list(&offsets, back));
    }
}

#[test]
fn acs_of_another_version() {
    for version in (0..16).filter(|&version| version != 1) {
        expect_nine(bridge().header(0x200, ACS, version, 0));
        expect_nine(bridge().header(START, ACS, version, 0));
    }
}

#[test]
fn vectors_are_whole_doublewords() {
    for (size, doublewords) in [
        (0x00, 8),
        (0x01, 1),
        (0x08, 1),
        (0x1F, 1),
        (0x20, 1),
        (0x21, 2),
        (0x40, 2),
        (0x41, 3),
        (0x80, 4),
        (0xE0, 7),
        (0xE1, 8),
        (0xFE, 8),
        (0xFF, 8),
    ] {
        let image = bridge().acs(0x200, size << 8 | 0x7F, 0x00);
        expect_part(&image, 0x200, 8 + 4 * doublewords);
        let end = 0x208 + 4 * doublewords as usize;
        // Bits past the size are copied too.
        assert_eq!(vector(&image), padded(&image.bytes[0x208..end]), "{size}");
        // Without E there is no vector, whatever the size.
        let without = bridge().acs(0x200, size << 8 | 0x5F, 0x7F);
        expect_part(&without, 0x200, 8);
        assert_eq!(vector(&without), [0; 32]);
    }
}

#[test]
fn registers_are_copied_as_they_are() {
    for (capability, control) in [(0xFFDF, 0xFFFF), (0x0080, 0x8000), (0, 0), (0x085F, 0x20)] {
        let (word, record) = filled(&bridge().acs(0x200, capability, control));
        assert_eq!(word, 0x0000_0008_0200_0000);
        assert_eq!(record[8..10], capability.to_le_bytes());
        assert_eq!(record[10..12], control.to_le_bytes());
    }
    let image = bridge().acs(0x200, 0x01A0, 0xFF80).vector(0x200, 0xFF);
    assert_eq!(filled(&image).1[8..12], [0xA0, 0x01, 0x80, 0xFF]);
    assert_eq!(vector(&image), padded(&[0xFF; 4]));
}

#[test]
fn acs_at_the_end_of_the_image() {
    let at = |offset, capability| {
        bridge()
            .header(START, 1, 1, offset)
            .acs(offset, capability, 0x11)
    };
    // The registers end with the image; a vector would be past it.
    expect_part(&at(0xFF8, 0x005F), 0xFF8, 8);
    expect_nine(at(0xFF8, 0x017F));
    expect_nine(at(0xFF8, 0x007F));
    expect_part(&at(0xFF4, 0x017F), 0xFF4, 12);
    expect_nine(at(0xFF4, 0x217F));
    expect_part(&at(0xFD8, 0x007F), 0xFD8, 40);
    expect_part(&at(0xFD8, 0xFF7F), 0xFD8, 40);
    expect_nine(at(0xFDC, 0x007F));
    expect_part(&at(0xFDC, 0xE07F), 0xFDC, 36);
    expect_nine(at(0xFDC, 0xE17F));
    // At FFCh the Capability isn't there.
    expect_nine(at(LAST, 0));
    assert_eq!(bridge().bytes.len(), IMAGE);
}

#[test]
fn the_header_type_is_not_tested() {
    for header_type in [0x00, 0x01, 0x02, 0x80, 0x81, 0xFF] {
        let mut image = bridge();
        image.bytes[0x0E] = header_type;
        assert_eq!(filled(&image), filled(&bridge()));
    }
}

#[test]
fn nothing_else_of_the_image_is_read() {
    // Every byte before the list that isn't a named field.
    let mut image = bridge();
    for place in (0..0x18).chain(0x1B..0x20).chain(0x30..0x100) {
        image.bytes[place] ^= 0xFF;
    }
    assert_eq!(filled(&image), filled(&bridge()));
}
