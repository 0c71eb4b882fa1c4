//! All that lies one byte from a sheet.

/// Every beginning of the bytes, and all with one byte taken away, changed to
/// any other or put in at any place.
pub fn near(bytes: &[u8]) -> impl Iterator<Item = Vec<u8>> + '_ {
    let beginnings = (0..=bytes.len()).map(|end| bytes[..end].to_vec());
    let places = 0..bytes.len();
    let without = places.clone().map(|place| with(bytes, place, 1, &[]));
    let changed =
        places.flat_map(move |place| (0..=255).map(move |byte| with(bytes, place, 1, &[byte])));
    let longer = (0..=bytes.len())
        .flat_map(move |place| (0..=255).map(move |byte| with(bytes, place, 0, &[byte])));
    beginnings.chain(without).chain(changed).chain(longer)
}

/// The bytes with so many at this place replaced by others.
fn with(bytes: &[u8], place: usize, count: usize, others: &[u8]) -> Vec<u8> {
    [&bytes[..place], others, &bytes[place + count..]].concat()
}
