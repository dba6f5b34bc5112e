//! Stands in for cfb_reader.rs: a whole stream, unless it is longer than the cap.
//! Left out: everything else of that file, and the error it gives for a stream over the cap, of which only the fact is known here.

use crate::error::Error;
use std::io::{Read, Seek};

pub(crate) fn read_capped<F: Read + Seek>(mut stream: cfb::Stream<F>, cap: usize, what: &'static str) -> Result<Vec<u8>, Error> {
    if stream.len() > cap as u64 {
        return Err(Error::StreamTooLarge(what));
    }
    let mut bytes = Vec::with_capacity(stream.len() as usize);
    stream.read_to_end(&mut bytes)?;
    Ok(bytes)
}
