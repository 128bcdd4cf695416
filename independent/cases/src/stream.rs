//! `acsroute` inputs, items of the gate's corpus, and the stream format of many
//! of them.

/// The bytes of an input. The snapshot has at most 65,535 bytes, the header 255.
pub fn input_bytes(snapshot: &[u8], now: u64, origin: u16, header: &[u8]) -> Vec<u8> {
    let mut input = Vec::with_capacity(13 + snapshot.len() + header.len());
    input.extend_from_slice(&(snapshot.len() as u16).to_le_bytes());
    input.extend_from_slice(snapshot);
    input.extend_from_slice(&now.to_le_bytes());
    input.extend_from_slice(&origin.to_le_bytes());
    input.push(header.len() as u8);
    input.extend_from_slice(header);
    input
}

/// The call that an item's first byte names.
pub const QUERY: u8 = 0;
pub const FILL: u8 = 2;

/// The item of an `acsroute` input.
pub fn query_item(input: &[u8]) -> Vec<u8> {
    [&[QUERY], input].concat()
}

/// The item of a fill.
pub fn fill_item(image: &[u8], record: &[u8]) -> Vec<u8> {
    let mut item = vec![FILL];
    for slice in [image, record] {
        item.extend_from_slice(&(slice.len() as u32).to_le_bytes());
        item.extend_from_slice(slice);
    }
    item
}

/// The items of a stream: each a 4-byte length and that many bytes. An item
/// that is cut off comes as an error and is the last.
pub fn items(stream: &[u8]) -> impl Iterator<Item = Result<&[u8], ()>> {
    let mut rest = stream;
    std::iter::from_fn(move || {
        if rest.is_empty() {
            return None;
        }
        let (item, after) = match next_item(rest) {
            Some((item, after)) => (Ok(item), after),
            None => (Err(()), &[][..]),
        };
        rest = after;
        Some(item)
    })
}

fn next_item(stream: &[u8]) -> Option<(&[u8], &[u8])> {
    let (length, rest) = stream.split_at_checked(4)?;
    let length = u32::from_le_bytes(length.try_into().unwrap());
    rest.split_at_checked(length as usize)
}

/// Appends an item to a stream.
pub fn push_item(stream: &mut Vec<u8>, item: &[u8]) {
    stream.extend_from_slice(&(item.len() as u32).to_le_bytes());
    stream.extend_from_slice(item);
}
