//! Stands in for the crate cfb: named streams in one file, which is a count (4 bytes, little-endian), then for each stream
//! its name after its length (4 bytes) and its data after its length (8 bytes).
//! Left out: the compound file format itself with its sectors, directory tree and times; names are compared exactly.
//! What is created or removed is only in the list in memory: the file's own list is not rewritten.

use std::cell::RefCell;
use std::io::{self, Read, Seek, SeekFrom, Write};
use std::rc::Rc;

/// The file that has these streams, in this order.
pub fn file_of(streams: &[(&str, &[u8])]) -> Vec<u8> {
    let len: usize = streams.iter().map(|(name, data)| 12 + name.len() + data.len()).sum();
    let mut file = Vec::with_capacity(4 + len);
    file.extend((streams.len() as u32).to_le_bytes());
    for (name, data) in streams {
        file.extend((name.len() as u32).to_le_bytes());
        file.extend(name.as_bytes());
        file.extend((data.len() as u64).to_le_bytes());
        file.extend(*data);
    }
    file
}

/// Where a stream's data is in the file. A removed stream keeps its place without a name.
struct Place {
    name: Vec<u8>,
    start: u64,
    len: u64,
}

struct Shared<F> {
    file: F,
    places: Vec<Place>,
}

impl<F> Shared<F> {
    fn find(&self, name: &str) -> io::Result<usize> {
        let found = self.places.iter().position(|place| place.name == name.as_bytes());
        found.ok_or_else(|| io::ErrorKind::NotFound.into())
    }
}

pub struct CompoundFile<F> {
    shared: Rc<RefCell<Shared<F>>>,
}

fn number<F: Read>(file: &mut F, bytes: usize) -> io::Result<u64> {
    let mut number = [0; 8];
    file.read_exact(&mut number[..bytes])?;
    Ok(u64::from_le_bytes(number))
}

impl<F: Read + Seek> CompoundFile<F> {
    pub fn open(mut file: F) -> io::Result<Self> {
        let mut places = Vec::new();
        for _ in 0..number(&mut file, 4)? {
            let mut name = vec![0; number(&mut file, 4)? as usize];
            file.read_exact(&mut name)?;
            let len = number(&mut file, 8)?;
            let start = file.stream_position()?;
            file.seek(SeekFrom::Start(start + len))?;
            places.push(Place { name, start, len });
        }
        Ok(Self { shared: Rc::new(RefCell::new(Shared { file, places })) })
    }

    pub fn exists(&self, name: &str) -> bool {
        self.shared.borrow().find(name).is_ok()
    }

    pub fn is_stream(&self, name: &str) -> bool {
        self.exists(name)
    }

    pub fn entry(&self, name: &str) -> io::Result<Entry> {
        let shared = self.shared.borrow();
        Ok(Entry { len: shared.places[shared.find(name)?].len })
    }

    pub fn open_stream(&mut self, name: &str) -> io::Result<Stream<F>> {
        let place = self.shared.borrow().find(name)?;
        Ok(Stream { shared: self.shared.clone(), place, at: 0 })
    }

    /// An empty stream at the file's end, in place of any other of its name.
    pub fn create_stream(&mut self, name: &str) -> io::Result<Stream<F>> {
        let _ = self.remove_stream(name);
        let mut shared = self.shared.borrow_mut();
        let start = shared.file.seek(SeekFrom::End(0))?;
        shared.places.push(Place { name: name.into(), start, len: 0 });
        Ok(Stream { shared: self.shared.clone(), place: shared.places.len() - 1, at: 0 })
    }

    pub fn remove_stream(&mut self, name: &str) -> io::Result<()> {
        let mut shared = self.shared.borrow_mut();
        let place = shared.find(name)?;
        shared.places[place].name.clear();
        Ok(())
    }

    pub fn into_inner(self) -> F {
        let shared = Rc::try_unwrap(self.shared).unwrap_or_else(|_| panic!("a stream is still open"));
        shared.into_inner().file
    }
}

impl<F: Write> CompoundFile<F> {
    pub fn flush(&mut self) -> io::Result<()> {
        self.shared.borrow_mut().file.flush()
    }
}

/// What is known of a stream without opening it.
pub struct Entry {
    len: u64,
}

impl Entry {
    pub fn is_stream(&self) -> bool {
        true
    }

    #[allow(clippy::len_without_is_empty)]
    pub fn len(&self) -> u64 {
        self.len
    }
}

/// One stream, open at a position.
pub struct Stream<F> {
    shared: Rc<RefCell<Shared<F>>>,
    place: usize,
    at: u64,
}

impl<F> Stream<F> {
    #[allow(clippy::len_without_is_empty)]
    pub fn len(&self) -> u64 {
        self.shared.borrow().places[self.place].len
    }
}

impl<F: Read + Seek> Read for Stream<F> {
    fn read(&mut self, buffer: &mut [u8]) -> io::Result<usize> {
        let shared = &mut *self.shared.borrow_mut();
        let place = &shared.places[self.place];
        let wanted = place.len.saturating_sub(self.at).min(buffer.len() as u64);
        shared.file.seek(SeekFrom::Start(place.start + self.at))?;
        let read = shared.file.read(&mut buffer[..wanted as usize])?;
        self.at += read as u64;
        Ok(read)
    }
}

/// A stream grows only where it is the last thing in the file.
impl<F: Write + Seek> Write for Stream<F> {
    fn write(&mut self, bytes: &[u8]) -> io::Result<usize> {
        let shared = &mut *self.shared.borrow_mut();
        let place = &mut shared.places[self.place];
        let end = self.at + bytes.len() as u64;
        if end > place.len && shared.file.seek(SeekFrom::End(0))? != place.start + place.len {
            return Err(io::ErrorKind::Unsupported.into());
        }
        shared.file.seek(SeekFrom::Start(place.start + self.at))?;
        shared.file.write_all(bytes)?;
        self.at = end;
        place.len = place.len.max(end);
        Ok(bytes.len())
    }

    fn flush(&mut self) -> io::Result<()> {
        self.shared.borrow_mut().file.flush()
    }
}

impl<F> Seek for Stream<F> {
    fn seek(&mut self, to: SeekFrom) -> io::Result<u64> {
        let at = match to {
            SeekFrom::Start(at) => Some(at),
            SeekFrom::End(by) => self.len().checked_add_signed(by),
            SeekFrom::Current(by) => self.at.checked_add_signed(by),
        };
        self.at = at.ok_or(io::ErrorKind::InvalidInput)?;
        Ok(self.at)
    }
}
