//! Sheets in one stream, for programs in C and C++: for each its length in four
//! bytes, the lowest first, and its bytes.

pub fn pack<'a>(sheets: impl IntoIterator<Item = &'a [u8]>) -> Vec<u8> {
    let mut stream = Vec::new();
    for bytes in sheets {
        stream.extend((bytes.len() as u32).to_le_bytes());
        stream.extend(bytes);
    }
    stream
}
