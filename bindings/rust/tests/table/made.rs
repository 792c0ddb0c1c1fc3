//! Fonts that tests put together.

pub fn words(words: &[u16]) -> Vec<u8> {
    words.iter().flat_map(|word| word.to_be_bytes()).collect()
}

/// A file of these tables.
pub fn file(tables: &[(&[u8; 4], Vec<u8>)]) -> Vec<u8> {
    let (mut front, mut bodies) = (words(&[1, 0, tables.len() as u16, 0, 0, 0]), vec![]);
    for (tag, body) in tables {
        let from = (12 + 16 * tables.len() + bodies.len()) as u32;
        front.extend_from_slice(*tag);
        for number in [0, from, body.len() as u32] {
            front.extend_from_slice(&number.to_be_bytes());
        }
        bodies.extend_from_slice(body);
    }
    [front, bodies].concat()
}
