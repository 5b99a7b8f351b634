//! Big-endian numbers and texts, read from the front of a file and written at the end of one. Every file of the
//! port is read and written through these.

/// A file being read, with the place reached.
pub struct Reader<'a> {
    file: &'a [u8],
    pub place: usize,
}

impl<'a> Reader<'a> {
    pub fn new(file: &'a [u8]) -> Self {
        Reader { file, place: 0 }
    }

    /// A reader that stands behind the version byte.
    pub fn versioned(file: &'a [u8], limit: usize) -> Result<Self, String> {
        if file.len() > limit {
            return Err(format!("a file of {} bytes, over {limit}", file.len()));
        }
        let mut reader = Reader::new(file);
        match reader.number(1) {
            Ok(1) => Ok(reader),
            _ => Err("the version byte is not 1".to_owned()),
        }
    }

    pub fn left(&self) -> usize {
        self.file.len() - self.place
    }

    pub fn take(&mut self, count: usize) -> Result<&'a [u8], String> {
        if count > self.left() {
            return Err(format!("a field runs past the end at {}", self.place));
        }
        let part = &self.file[self.place..self.place + count];
        self.place += count;
        Ok(part)
    }

    /// A number of `width` bytes.
    pub fn number(&mut self, width: usize) -> Result<u64, String> {
        let bytes = self.take(width)?;
        Ok(bytes.iter().fold(0, |n, b| n << 8 | u64::from(*b)))
    }

    /// A number of `width` bytes that is at most `most`.
    pub fn limited(&mut self, width: usize, most: u64) -> Result<u64, String> {
        let start = self.place;
        match self.number(width)? {
            n if n <= most => Ok(n),
            n => Err(format!("{n} at {start} is over {most}")),
        }
    }

    /// A count of `width` bytes that is at most `most`.
    pub fn count(&mut self, width: usize, most: usize) -> Result<usize, String> {
        Ok(self.limited(width, most as u64)? as usize)
    }

    /// A flag and, after 1, a number.
    pub fn optional(&mut self, width: usize) -> Result<Option<u64>, String> {
        match self.limited(1, 1)? {
            0 => Ok(None),
            _ => self.number(width).map(Some),
        }
    }

    pub fn text(&mut self, most: usize) -> Result<String, String> {
        let start = self.place;
        let length = self.count(1, most)?;
        let bytes = self.take(length)?;
        if !bytes.iter().all(|b| (32..=126).contains(b)) {
            return Err(format!("the text at {start} has a byte outside 32 to 126"));
        }
        Ok(bytes.iter().map(|b| char::from(*b)).collect())
    }

    pub fn texts(&mut self, most: usize, length: usize) -> Result<Vec<String>, String> {
        let count = self.count(2, most)?;
        (0..count).map(|_| self.text(length)).collect()
    }

    pub fn end(&self) -> Result<(), String> {
        match self.left() {
            0 => Ok(()),
            _ => Err(format!("bytes over from {}", self.place)),
        }
    }
}

/// A file being written.
#[derive(Default)]
pub struct Writer {
    pub file: Vec<u8>,
}

impl Writer {
    pub fn versioned() -> Self {
        Writer { file: vec![1] }
    }

    pub fn number(&mut self, width: usize, n: u64) -> &mut Self {
        debug_assert!(width == 8 || n >> (8 * width) == 0, "{n} in {width} bytes");
        self.file.extend_from_slice(&n.to_be_bytes()[8 - width..]);
        self
    }

    pub fn count(&mut self, width: usize, n: usize) -> &mut Self {
        self.number(width, n as u64)
    }

    pub fn optional(&mut self, width: usize, n: Option<u64>) -> &mut Self {
        match n {
            None => self.number(1, 0),
            Some(n) => self.number(1, 1).number(width, n),
        }
    }

    pub fn text(&mut self, text: &str) -> &mut Self {
        self.count(1, text.len());
        self.file.extend_from_slice(text.as_bytes());
        self
    }

    pub fn texts(&mut self, texts: &[String]) -> &mut Self {
        self.count(2, texts.len());
        for text in texts {
            self.text(text);
        }
        self
    }
}

/// A size table: 8 bytes an entry.
pub fn table(bytes: &[u8]) -> Result<Vec<u64>, String> {
    if !bytes.len().is_multiple_of(8) || bytes.len() > 256 * 8 {
        return Err("a table is at most 256 entries of 8 bytes".to_owned());
    }
    let mut reader = Reader::new(bytes);
    (0..bytes.len() / 8).map(|_| reader.limited(8, 1 << 40)).collect()
}

/// A size table's bytes.
pub fn table_bytes(entries: &[u64]) -> Vec<u8> {
    entries.iter().flat_map(|n| n.to_be_bytes()).collect()
}
