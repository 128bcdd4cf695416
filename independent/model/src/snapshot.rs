//! Reading a snapshot: its header, its records and the rules they must keep.

pub mod head;
pub mod record;
pub mod rules;
pub mod tree;

use crate::answer::Refusal;
use crate::bytes::le16;
use head::{HEAD, RECORD};
use record::Node;
use tree::Tree;

/// Reads a snapshot or says why it is refused (numbers 1 to 4).
pub fn read(bytes: &[u8], now: u64) -> Result<Tree<'_>, Refusal> {
    test_head(bytes, now)?;
    read_records(bytes)
}

/// Tested in the order: short or mark 1, then 2, the rest of 1, then 3.
fn test_head(bytes: &[u8], now: u64) -> Result<(), Refusal> {
    Refusal::unless(1, bytes.len() >= HEAD)?;
    Refusal::unless(1, head::mark_right(bytes))?;
    Refusal::unless(2, head::version_right(bytes))?;
    Refusal::unless(1, head::rest_right(bytes))?;
    Refusal::unless(3, head::good_at(bytes, now))
}

/// Reads the records in order. Each is tested against itself and earlier ones,
/// so the first that fails is the lowest faulty record.
fn read_records(bytes: &[u8]) -> Result<Tree<'_>, Refusal> {
    let count = le16(bytes, 6);
    let mut tree = Tree::new(bytes[3], usize::from(count));
    for (index, record) in (0..count).zip(bytes[HEAD..].as_chunks::<RECORD>().0) {
        add_record(&mut tree, index, record).ok_or(Refusal::new(4, index))?;
    }
    Ok(tree)
}

/// Adds a record to the tree, or gives nothing if it is faulty.
fn add_record<'a>(tree: &mut Tree<'a>, index: u16, record: &'a [u8; RECORD]) -> Option<()> {
    let node = Node::read(record)?;
    if !rules::kept(tree, index, record, &node) {
        return None;
    }
    tree.add(index, node);
    Some(())
}
