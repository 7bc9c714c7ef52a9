//! All strings of a length over a few bytes, for exhaustive cases.

pub fn strings(length: usize, bytes: &[u8]) -> Vec<Vec<u8>> {
    (0..length).fold(vec![Vec::new()], |shorter, _| {
        let longer = |string: &Vec<u8>| each_with(string, bytes);
        shorter.iter().flat_map(longer).collect()
    })
}

/// The string with each of the bytes behind it.
fn each_with(string: &[u8], bytes: &[u8]) -> Vec<Vec<u8>> {
    let with = |&byte: &u8| [string, &[byte]].concat();
    bytes.iter().map(with).collect()
}
