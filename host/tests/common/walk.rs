//! The walk over the records of a stream, by documents 01 and 02.

/// A record: the offset of its header, its id and its body.
pub type Walked<'a> = (usize, u16, &'a [u8]);

/// The records of a stream, and the offset of a header that can't be read. One to three zero bytes
/// behind the last record are padding.
pub fn walk(stream: &[u8]) -> (Vec<Walked<'_>>, Option<usize>) {
    let mut records = Vec::new();
    let mut at = 0;
    while at < stream.len() {
        let rest = &stream[at..];
        if [0; 3].starts_with(rest) {
            break;
        }
        let number = |k: usize| Some(u16::from_le_bytes([*rest.get(k)?, *rest.get(k + 1)?]));
        let (Some(id), Some(len)) = (number(0), number(2)) else {
            return (records, Some(at));
        };
        let Some(body) = rest.get(4..4 + usize::from(len)) else {
            return (records, Some(at));
        };
        records.push((at, id, body));
        at += 4 + body.len();
    }
    (records, None)
}
