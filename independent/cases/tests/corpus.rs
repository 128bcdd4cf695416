//! The corpus stays as it is. (That its answers notice the deliberate faults is
//! part of `make faults`.)

use cases::corpus::items;
use model::gate;

#[test]
fn corpus_is_always_the_same_and_small() {
    let items = items();
    assert_eq!(items, cases::corpus::items());
    let bytes: usize = items
        .iter()
        .map(|item| 4 + item.len() + gate::answer(item).len())
        .sum();
    assert!(bytes <= 2_300_000, "{bytes} bytes");
}
