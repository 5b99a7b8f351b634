//! Plans, groups and sorted answers as Rust values, read from their files.

/// A plan: the reads that fetch the tags of a list.
///
/// ```
/// let file = [&[1, 0, 1, 5][..], b"Odd.5", &[0, 1, 5], b"Odd.5", &[0]].concat();
/// let plan = ruvangixo::Plan::read(&file).unwrap();
/// assert_eq!(plan.reads[0].name, "Odd.5");
/// assert_eq!(plan.reads[0].members[0].path, None);
/// ```
#[derive(Clone, Debug, PartialEq, Eq)]
pub struct Plan<'a> {
    /// In the order in which results are given.
    pub reads: Vec<Read<'a>>,
}

/// One read of a plan.
///
/// ```
/// // A read for two tags, one by a path of no keys.
/// let file = [1, 0, 1, 1, b'R', 0, 2, 1, b'R', 0, 1, b'r', 1, 0];
/// let plan = ruvangixo::Plan::read(&file).unwrap();
/// let tags: Vec<&str> = plan.reads[0].members.iter().map(|member| member.tag).collect();
/// assert_eq!((plan.reads[0].name, tags), ("R", vec!["R", "r"]));
/// ```
#[derive(Clone, Debug, PartialEq, Eq)]
pub struct Read<'a> {
    /// What the controller is asked for: `Motor`, `Trend[3]{3}`.
    pub name: &'a str,
    /// The tags that it serves.
    pub members: Vec<Member<'a>>,
}

/// A tag that a read serves.
///
/// ```
/// let catalog = std::fs::read("../../examples/motor.catalog")?;
/// let list = std::fs::read("../../examples/motor.list")?;
/// let file = ruvangixo::plan(&catalog, &list)?;
/// let plan = ruvangixo::Plan::read(&file).unwrap();
/// let member = &plan.reads[0].members[1];
/// assert_eq!(member.tag, "Motor.Amps");
/// assert!(member.path.is_some());
/// # Ok::<(), Box<dyn std::error::Error>>(())
/// ```
#[derive(Clone, Debug, PartialEq, Eq)]
pub struct Member<'a> {
    /// The tag as it is listed.
    pub tag: &'a str,
    /// The way from the read's value to the tag's; `None` where the read's value is the tag's.
    pub path: Option<Path<'a>>,
}

/// The way from a read's value to the value of a tag.
///
/// ```
/// use ruvangixo::{Key, Plan, dig};
///
/// let catalog = std::fs::read("../../examples/motor.catalog")?;
/// let list = std::fs::read("../../examples/motor.list")?;
/// let file = ruvangixo::plan(&catalog, &list)?;
/// let plan = Plan::read(&file).unwrap();
/// let path = plan.reads[1].members[1].path.as_ref().unwrap();
/// assert_eq!(path.keys, [Key::Index(2)]);
/// // A leaf has no items.
/// assert_eq!(dig(&[1, 0, 0, 0, 1, 0], path.bytes)?, None);
/// # Ok::<(), Box<dyn std::error::Error>>(())
/// ```
#[derive(Clone, Debug, PartialEq, Eq)]
pub struct Path<'a> {
    /// The path as [`dig`](crate::dig) takes it.
    pub bytes: &'a [u8],
    /// Its keys.
    pub keys: Vec<Key<'a>>,
}

/// One step of a [`Path`].
///
/// ```
/// use ruvangixo::Key;
///
/// fn spelled(key: Key) -> String {
///     match key {
///         Key::Member(name) => format!(".{name}"),
///         Key::Index(n) | Key::First(n) => format!("[{n}]"),
///     }
/// }
/// assert_eq!([Key::Member("Speed"), Key::Index(3)].map(spelled).concat(), ".Speed[3]");
/// ```
#[derive(Clone, Copy, Debug, PartialEq, Eq)]
pub enum Key<'a> {
    /// To a member of a struct.
    Member(&'a str),
    /// To an item of an array.
    Index(u32),
    /// To an item of an array, by the first of several indexes.
    First(u32),
}

/// Which reads go into one packet.
///
/// ```
/// let file = ruvangixo::chunks(&[14, 14], &[12, 12], 64)?;
/// let groups = ruvangixo::Groups::read(&file).unwrap();
/// assert_eq!((groups.packets, groups.groups), (2, vec![vec![0], vec![1]]));
/// # Ok::<(), ruvangixo::Refusal>(())
/// ```
#[derive(Clone, Debug, PartialEq, Eq)]
pub struct Groups {
    /// How many packets all groups take.
    pub packets: u64,
    /// For each group the positions of its reads, from 0.
    pub groups: Vec<Vec<u16>>,
}

/// What came back, sorted by cell.
///
/// ```
/// use ruvangixo::{Entry, Sorted};
///
/// assert_eq!(
///     Sorted::read(&[1, 0, 2, 0, 0, 0, 0, 7, 1, 0, 1, 0, 4]),
///     Some(Sorted { entries: vec![Entry::Cut(7), Entry::Retry], failed: vec![4] }),
/// );
/// ```
#[derive(Clone, Debug, PartialEq, Eq)]
pub struct Sorted {
    /// One for each member of the plan, read by read.
    pub entries: Vec<Entry>,
    /// The positions of the reads that failed.
    pub failed: Vec<u16>,
}

/// What is known of a cell.
///
/// ```
/// use ruvangixo::{Entry, value_at};
///
/// // The results of one read, a leaf of one byte, and an entry that leads to it.
/// let results = [1, 0, 1, 0, 0, 0, 0, 2, 0, 99];
/// let shown = match Entry::Cut(4) {
///     Entry::Cut(place) => value_at(&results, place as usize),
///     Entry::Retry | Entry::Received => None,
/// };
/// assert_eq!(shown, Some(&[0, 0, 0, 2, 0, 99][..]));
/// ```
#[derive(Clone, Copy, Debug, PartialEq, Eq)]
pub enum Entry {
    /// Its value stands in the results file, with the length field at this place; [`value_at`] hands it out.
    Cut(u32),
    /// Its tag is to be read again by itself.
    Retry,
    /// What came back for its read is its own, value or error.
    Received,
}

impl<'a> Plan<'a> {
    /// Reads a plan file; `None` where the bytes are not laid out as one. Limits are not looked at: the calls that take a plan
    /// check them.
    ///
    /// ```
    /// assert_eq!(ruvangixo::Plan::read(&[1, 0, 0]).map(|plan| plan.reads.len()), Some(0));
    /// assert_eq!(ruvangixo::Plan::read(&[1, 0]), None);
    /// ```
    #[must_use]
    pub fn read(file: &'a [u8]) -> Option<Self> {
        let mut rest = Rest::open(file)?;
        let reads = rest.counted(|rest| {
            let name = rest.text()?;
            Some(Read { name, members: rest.counted(Rest::member)? })
        })?;
        rest.close(Plan { reads })
    }
}

impl Groups {
    /// Reads a groups file; `None` where the bytes are not laid out as one.
    ///
    /// ```
    /// assert_eq!(ruvangixo::Groups::read(b"no groups"), None);
    /// ```
    #[must_use]
    pub fn read(file: &[u8]) -> Option<Self> {
        let mut rest = Rest::open(file)?;
        let packets = rest.take().map(u64::from_be_bytes)?;
        let groups = rest.counted(|rest| rest.counted(Rest::short))?;
        rest.close(Groups { packets, groups })
    }
}

impl Sorted {
    /// Reads a sorted file; `None` where the bytes are not laid out as one.
    ///
    /// ```
    /// assert_eq!(ruvangixo::Sorted::read(&[1, 0, 1, 3, 0, 0]), None);
    /// ```
    #[must_use]
    pub fn read(file: &[u8]) -> Option<Self> {
        let mut rest = Rest::open(file)?;
        let entries = rest.counted(|rest| match rest.byte()? {
            0 => rest.long().map(Entry::Cut),
            1 => Some(Entry::Retry),
            2 => Some(Entry::Received),
            _ => None,
        })?;
        let failed = rest.counted(Rest::short)?;
        rest.close(Sorted { entries, failed })
    }
}

/// The value in a results file or a value file whose length field stands at a place, from that field on; `None` where it runs
/// past the end.
///
/// ```
/// assert_eq!(ruvangixo::value_at(&[1, 0, 0, 0, 2, 0, 99], 1), Some(&[0, 0, 0, 2, 0, 99][..]));
/// assert_eq!(ruvangixo::value_at(&[1, 0, 0, 0, 3, 0, 99], 1), None);
/// ```
#[must_use]
pub fn value_at(file: &[u8], place: usize) -> Option<&[u8]> {
    let value = file.get(place..)?;
    let length = u32::from_be_bytes(*value.first_chunk()?);
    value.get(..usize::try_from(length).ok()?.checked_add(4)?)
}

/// What is left of a file.
struct Rest<'a>(&'a [u8]);

impl<'a> Rest<'a> {
    /// A file behind its version.
    fn open(file: &'a [u8]) -> Option<Self> {
        file.strip_prefix(&[1]).map(Rest)
    }

    /// What was read, where nothing is left.
    fn close<T>(&self, read: T) -> Option<T> {
        self.0.is_empty().then_some(read)
    }

    fn take<const N: usize>(&mut self) -> Option<[u8; N]> {
        let (front, rest) = self.0.split_first_chunk()?;
        self.0 = rest;
        Some(*front)
    }

    fn byte(&mut self) -> Option<u8> {
        self.take().map(u8::from_be_bytes)
    }

    fn short(&mut self) -> Option<u16> {
        self.take().map(u16::from_be_bytes)
    }

    fn long(&mut self) -> Option<u32> {
        self.take().map(u32::from_be_bytes)
    }

    fn text(&mut self) -> Option<&'a str> {
        let length = self.byte()?;
        let (text, rest) = self.0.split_at_checked(usize::from(length))?;
        self.0 = rest;
        std::str::from_utf8(text).ok()
    }

    fn counted<T>(&mut self, each: impl Fn(&mut Self) -> Option<T>) -> Option<Vec<T>> {
        let count = self.short()?;
        (0..count).map(|_| each(self)).collect()
    }

    fn member(&mut self) -> Option<Member<'a>> {
        let tag = self.text()?;
        let path = match self.byte()? {
            0 => None,
            1 => Some(self.path()?),
            _ => return None,
        };
        Some(Member { tag, path })
    }

    fn path(&mut self) -> Option<Path<'a>> {
        let start = self.0;
        let count = self.byte()?;
        let keys = (0..count).map(|_| self.key()).collect::<Option<_>>()?;
        Some(Path { bytes: &start[..start.len() - self.0.len()], keys })
    }

    fn key(&mut self) -> Option<Key<'a>> {
        match self.byte()? {
            0 => self.text().map(Key::Member),
            1 => self.long().map(Key::Index),
            2 => self.long().map(Key::First),
            _ => None,
        }
    }
}
