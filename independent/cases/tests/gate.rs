//! What is printed for an item of the gate's corpus.

use cases::fabric::{fabric_f, request, WRITE};
use cases::images::{bridge, Image};
use cases::stream::{fill_item, input_bytes, query_item};
use model::acsroute;
use model::gate::{answer, Item};

/// The item of fill by hand: call, two lengths, and no bytes.
const EMPTY: [u8; 9] = [2, 0, 0, 0, 0, 0, 0, 0, 0];

#[test]
fn a_query_is_answered_as_acsroute_does() {
    let header = request(WRITE, 0x0300, 0, 0x8010_0000, 1);
    let input = input_bytes(&fabric_f(2, 0).bytes(), 1500, 4, &header);
    let item = query_item(&input);
    assert_eq!(item[0], 0);
    let f1 = "ACS 1 records 6\ndelivered 5 unvalidated 2:4 3:6 5:7\n";
    assert_eq!(answer(&item), f1);
    for length in 0..input.len() {
        let cut = query_item(&input[..length]);
        assert_eq!(answer(&cut), acsroute(&input[..length]));
    }
}

#[test]
fn a_fill_is_a_line_of_word_and_record() {
    let item = fill_item(&Image::filled(0).bytes, &[0xEE; 144]);
    assert_eq!(item.len(), 1 + 4 + 4096 + 4 + 144);
    assert_eq!(item[..5], [2, 0x00, 0x10, 0, 0]);
    assert_eq!(item[4101..4105], [144, 0, 0, 0]);
    let window = "0000000000000000ffff0f0000000000";
    let expected = [
        "0000000000000000 ",
        "eeeeeeee00ee000000000000eeeeeeee",
        &"00".repeat(32),
        window,
        window,
        &"ee".repeat(64),
        "\n",
    ];
    assert_eq!(answer(&item), expected.concat());
    let word = "0000000c02000000 ";
    let filled = answer(&fill_item(&bridge().bytes, &[0; 144]));
    assert_eq!(filled.len(), 16 + 1 + 288 + 1);
    assert!(filled.starts_with(word), "{filled}");
}

#[test]
fn a_refused_fill_prints_the_record_as_it_was() {
    let bad = Image::filled(0xFF).bytes;
    let nine = format!("0000000000000906 {}\n", "0a".repeat(144));
    assert_eq!(answer(&fill_item(&bad, &[10; 144])), nine);
    assert_eq!(
        answer(&fill_item(&bad, &[1, 0xAB])),
        "0000000000000806 01ab\n"
    );
    // The blank is there without a record too.
    assert_eq!(answer(&EMPTY), "0000000000000806 \n");
    assert_eq!(answer(&fill_item(&[], &[])), "0000000000000806 \n");
}

#[test]
fn items_that_are_not_well_made() {
    assert_eq!(answer(&[]), "input\n");
    for call in (1..=255).filter(|&call| call != 2) {
        let mut item = EMPTY;
        item[0] = call;
        assert_eq!(answer(&item), "input\n");
    }
    for length in 1..EMPTY.len() {
        assert_eq!(answer(&EMPTY[..length]), "input\n");
    }
    assert_eq!(answer(&[&EMPTY[..], &[0]].concat()), "input\n");
    // A length beyond the end, of the image and of the record.
    for place in 1..9 {
        let mut item = EMPTY;
        item[place] = 0xFF;
        assert_eq!(answer(&item), "input\n");
    }
}

/// The limits are tried here, not in the corpus: they need items that are large
/// and say nothing else.
#[test]
fn the_longest_item_has_131072_bytes() {
    let item = fill_item(&vec![0x5A; 131_063], &[]);
    assert_eq!(item.len(), 131_072);
    assert_eq!(answer(&item), "0000000000000806 \n");
    assert_eq!(answer(&fill_item(&vec![0x5A; 131_064], &[])), "input\n");
    // `acsroute` itself prints `input` for so long an input.
    let input = vec![0; 131_072];
    let longest = Item::Query(&input[1..]);
    assert_eq!(Item::read(&query_item(&input[1..])), Some(longest));
    assert_eq!(Item::read(&query_item(&input)), None);
    assert_eq!(answer(&query_item(&input)), "input\n");
}

#[test]
fn the_longest_record_has_65536_bytes() {
    let record = vec![0xAB; 65_537];
    let as_it_was = format!("0000000000000806 {}\n", "ab".repeat(65_536));
    for image in [&[][..], &bridge().bytes] {
        assert!(answer(&fill_item(image, &record[1..])) == as_it_was);
        assert!(answer(&fill_item(image, &record)) == "input\n");
    }
    // The image isn't lent, and may be longer.
    let image = vec![0x5A; 65_537];
    let eight = "0000000000000806 abab\n";
    assert_eq!(answer(&fill_item(&image, &record[..2])), eight);
    // The longest record in the longest item.
    let item = fill_item(&image[..65_527], &record[1..]);
    assert_eq!(item.len(), 131_072);
    assert!(answer(&item) == as_it_was);
    assert_eq!(
        answer(&fill_item(&image[..65_528], &record[1..])),
        "input\n"
    );
}
