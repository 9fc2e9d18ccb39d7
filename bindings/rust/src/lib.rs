//! Layouts, paths, queries, groups and texts over bytes in memory, by the proved library `fm_c`.
//!
//! A layout says as JSON what stands in a record. A [`Place`] says where a path's value stands in it, so that a loop of
//! one's own reads the right bytes; [`query`] answers a query over records, [`groups`] says how often each number comes, and
//! [`texts`] reads the records' texts.
//!
//! ```
//! let layout = r#"{"type":"struct","members":[
//!     {"type":"int","name":"id"},{"type":"sequence","name":"tags","count":4,"element":{"type":"byte"}}]}"#;
//! let records = [1, 0, 0, 0, 1, 2, 3, 4, 2, 0, 0, 0, 5, 6, 7, 8];
//! assert_eq!(fmem::query(layout, "count,sum(.tags[])", &records)?, "count 2\nsum(.tags[]) 36\n");
//! let tag = fmem::Place::of(layout, ".tags[]")?;
//! assert_eq!(tag.at(&[2]), Some(6));
//! # Ok::<(), fmem::Error>(())
//! ```
//!
//! A call shares nothing, and keeps nothing but what a [`Query`] keeps, which is `Send` and not `Sync`: all else here may be
//! used from any number of threads.

use std::fmt;

mod raw;

pub use raw::Stride;

/// Why a call was refused.
#[derive(Clone, Copy, Debug, PartialEq, Eq, Hash)]
pub enum Error {
    /// The layout, the path, the query or the records are refused: the number, and its arguments where it has some. The
    /// repository's `docs/REFUSALS.md` has the cause of each.
    Refused {
        number: u64,
        arguments: [Option<u64>; 2],
    },
    /// Memory ran out.
    Memory,
}

impl Error {
    fn of(report: &raw::Report) -> Error {
        if report.number == raw::MEMORY {
            return Error::Memory;
        }
        let argument = |k: u64, value| (k < report.arguments).then_some(value);
        Error::Refused {
            number: report.number,
            arguments: [argument(0, report.first), argument(1, report.second)],
        }
    }

    /// The number by which the refusal is printed.
    pub fn number(&self) -> u64 {
        match self {
            Error::Refused { number, .. } => *number,
            Error::Memory => raw::MEMORY,
        }
    }
}

/// As the program prints it: the number, and then the arguments.
impl fmt::Display for Error {
    fn fmt(&self, f: &mut fmt::Formatter<'_>) -> fmt::Result {
        write!(f, "{}", self.number())?;
        if let Error::Refused { arguments, .. } = self {
            for argument in arguments.iter().flatten() {
                write!(f, " {argument}")?;
            }
        }
        Ok(())
    }
}

impl std::error::Error for Error {}

/// The type of a value.
#[derive(Clone, Copy, Debug, PartialEq, Eq, Hash)]
pub enum Kind {
    Byte,
    Boolean,
    Char,
    Short,
    Int,
    Long,
}

impl Kind {
    /// Its bytes.
    pub fn width(self) -> usize {
        match self {
            Kind::Byte | Kind::Boolean => 1,
            Kind::Char | Kind::Short => 2,
            Kind::Int => 4,
            Kind::Long => 8,
        }
    }
}

/// Where a path leads in a record: plain data, which any number of threads may read. Sizes and offsets are in bytes.
#[derive(Clone, Debug, PartialEq, Eq, Hash)]
pub struct Place {
    place: raw::Place,
    kind: Kind,
    strides: Vec<Stride>,
}

impl Place {
    /// Where the path leads in the layout.
    pub fn of(layout: &str, path: &str) -> Result<Place, Error> {
        let mut place = raw::Place::default();
        let strides = raw::filled(8, |out| {
            raw::place(layout.as_bytes(), path.as_bytes(), &mut place, out)
        })?;
        let kind = match place.kind {
            0 => Kind::Byte,
            1 => Kind::Boolean,
            2 => Kind::Char,
            3 => Kind::Short,
            4 => Kind::Int,
            _ => Kind::Long,
        };
        Ok(Place {
            place,
            kind,
            strides,
        })
    }

    /// Where the value stands at these indices in bytes of which a record begins at `base`: so far from their start.
    ///
    /// Refused: 33 with the first index that isn't below its bound, is missing, or is one too many; 3 where the record
    /// passes the end of the bytes.
    #[inline]
    pub fn find(&self, bytes: &[u8], base: u64, indices: &[u64]) -> Result<usize, Error> {
        let within = raw::Within {
            size: bytes.len() as u64,
            base,
        };
        Ok(raw::at(&self.place, &self.strides, indices, &within)? as usize)
    }

    /// The value's offset in its record at one index for each open step; none where an index isn't below its bound, or
    /// there aren't as many.
    #[inline]
    pub fn at(&self, indices: &[u64]) -> Option<u64> {
        if indices.len() != self.strides.len() {
            return None;
        }
        let mut at = self.place.offset;
        for (stride, index) in self.strides.iter().zip(indices) {
            if *index >= stride.bound {
                return None;
            }
            at = at.wrapping_add(stride.stride.cast_unsigned().wrapping_mul(*index));
        }
        Some(at)
    }

    pub fn kind(&self) -> Kind {
        self.kind
    }

    pub fn is_big(&self) -> bool {
        self.place.order == 1
    }

    pub fn alignment(&self) -> u64 {
        self.place.alignment
    }

    pub fn record_size(&self) -> u64 {
        self.place.root_size
    }

    pub fn record_alignment(&self) -> u64 {
        self.place.root_alignment
    }

    /// Those of the open steps, in their order.
    pub fn strides(&self) -> &[Stride] {
        &self.strides
    }

    /// The number in the record, at these indices; none where `at` has none, or the record is shorter.
    #[inline]
    pub fn get(&self, record: &[u8], indices: &[u64]) -> Option<i64> {
        let at = self.at(indices)? as usize;
        let bytes = record.get(at..at + self.kind.width())?;
        let mut number = 0u64;
        for k in 0..bytes.len() {
            let place = if self.is_big() {
                bytes.len() - 1 - k
            } else {
                k
            };
            number |= u64::from(bytes[place]) << (8 * k);
        }
        let unused = 64 - 8 * bytes.len() as u32;
        Some(match self.kind {
            Kind::Boolean => i64::from(number != 0),
            Kind::Char => number as i64,
            _ => (number << unused).cast_signed() >> unused,
        })
    }
}

/// The layout's size and alignment in bytes.
pub fn measure(layout: &str) -> Result<(u64, u64), Error> {
    let mut extent = raw::Extent::default();
    raw::layout(layout.as_bytes(), &mut extent)?;
    Ok((extent.size, extent.alignment))
}

/// The text that lists the layout's places, as `fmem layout` prints it.
pub fn places(layout: &str) -> Result<String, Error> {
    raw::text(raw::filled(1024, |out| {
        raw::places(layout.as_bytes(), out)
    })?)
}

/// The text of what the query answers over records of the layout, as `fmem query` prints it.
///
/// The records are copied once a call; the call is made again where the text takes more than 4,096 bytes. More than
/// 67,108,864 bytes of records are refused.
pub fn query(layout: &str, text: &str, records: &[u8]) -> Result<String, Error> {
    let given = [layout.as_bytes(), text.as_bytes(), records];
    raw::text(raw::filled(4096, |out| raw::query(given, out))?)
}

/// A query that is kept, so that it isn't read anew each time. It may go to another thread, and answers one call at a time.
///
/// ```
/// let mut sum = fmem::Query::of(r#"{"type":"short"}"#, "sum(.)")?;
/// assert_eq!(sum.ask(&[1, 0, 2, 0])?, "sum(.) 3\n");
/// assert_eq!(sum.ask(&[])?, "sum(.) 0\n");
/// # Ok::<(), fmem::Error>(())
/// ```
///
/// It isn't `Sync`, since the library gives a handle to one call at a time:
///
/// ```compile_fail
/// fn crosses<T: Sync>() {}
/// crosses::<fmem::Query>();
/// ```
pub struct Query(raw::Handle);

impl Query {
    /// The query that the text spells, over records of the layout.
    pub fn of(layout: &str, text: &str) -> Result<Query, Error> {
        raw::Handle::make(layout.as_bytes(), text.as_bytes()).map(Query)
    }

    /// The text of what it answers over records, as `query`.
    pub fn ask(&mut self, records: &[u8]) -> Result<String, Error> {
        raw::text(raw::filled(4096, |out| self.0.ask(records, out))?)
    }
}

/// What an item of a query finds.
#[derive(Clone, Debug, PartialEq, Eq)]
pub enum Item {
    /// How many records are chosen.
    Count(u64),
    /// The sum of the values.
    Sum(i128),
    /// The least of them, if there is one.
    Least(Option<i64>),
    /// The greatest, if there is one.
    Greatest(Option<i64>),
    /// All of them.
    List(Vec<i64>),
}

/// What the query's items find in records of the layout, in their order. As `query`, but for the form of the
/// answer: the call is made again where it takes more than 64 numbers.
///
/// ```
/// use fmem::Item;
/// let found = fmem::items(r#"{"type":"short"}"#, "sum(.),list(.)", &[1, 0, 255, 255])?;
/// assert_eq!(found, [Item::Sum(0), Item::List(vec![1, -1])]);
/// # Ok::<(), fmem::Error>(())
/// ```
pub fn items(layout: &str, text: &str, records: &[u8]) -> Result<Vec<Item>, Error> {
    let given = [layout.as_bytes(), text.as_bytes(), records];
    let numbers = raw::filled(64, |out| raw::numbers(given, out))?;
    let (mut rest, mut found) = (&numbers[..], Vec::new());
    while let [form, count, more @ ..] = rest {
        let (of, behind) = more.split_at(*count as usize);
        found.push(match (form, of) {
            (0, [n]) => Item::Count(n.cast_unsigned()),
            (1, [low, high]) => {
                Item::Sum(i128::from(*high) << 64 | i128::from(low.cast_unsigned()))
            }
            (2, _) => Item::Least(of.first().copied()),
            (3, _) => Item::Greatest(of.first().copied()),
            _ => Item::List(of.to_vec()),
        });
        rest = behind;
    }
    Ok(found)
}

/// Each number that comes among the values of the path in records of the layout, and how often, in rising order.
///
/// ```
/// let bytes = [3, 255, 3];
/// assert_eq!(fmem::groups(r#"{"type":"byte"}"#, ".", &bytes)?, [(-1, 1), (3, 2)]);
/// # Ok::<(), fmem::Error>(())
/// ```
pub fn groups(layout: &str, path: &str, records: &[u8]) -> Result<Vec<(i64, u64)>, Error> {
    let given = [layout.as_bytes(), path.as_bytes(), records];
    let found = raw::filled(256, |out| raw::groups(given, out))?;
    Ok(found.iter().map(|it| (it.number, it.count)).collect())
}

/// The text of each record of the layout, in the bytes to which the path leads, up to the first that is 0; or why there is
/// none: no byte is 0, or the text isn't UTF-8.
///
/// ```
/// let layout = r#"{"type":"sequence","count":3,"element":{"type":"byte"}}"#;
/// let texts = fmem::texts(layout, ".", b"ab\0abc")?;
/// assert_eq!((texts[0].as_deref(), texts[1].as_ref().map_err(|e| e.number())), (Ok("ab"), Err(61)));
/// # Ok::<(), fmem::Error>(())
/// ```
pub fn texts(
    layout: &str,
    path: &str,
    records: &[u8],
) -> Result<Vec<Result<String, Error>>, Error> {
    let given = [layout.as_bytes(), path.as_bytes(), records];
    let lines = raw::text(raw::filled(4096, |out| raw::texts(given, out))?)?;
    lines.lines().map(text_of).collect()
}

/// The text of a line `text HEX`, or the refusal of one `refused NUMBERS`.
fn text_of(line: &str) -> Result<Result<String, Error>, Error> {
    if let Some(numbers) = line.strip_prefix("refused ") {
        let mut numbers = numbers.split(' ').map(|it| it.parse().ok());
        return Ok(Err(Error::Refused {
            number: numbers.next().flatten().expect("a number"),
            arguments: [numbers.next().flatten(), numbers.next().flatten()],
        }));
    }
    let digits = line.strip_prefix("text").expect("a text").trim_start();
    let byte = |pair: &[u8]| {
        let digit = |d: u8| char::from(d).to_digit(16).expect("a digit") as u8;
        digit(pair[0]) << 4 | digit(pair[1])
    };
    Ok(Ok(raw::text(
        digits.as_bytes().chunks_exact(2).map(byte).collect(),
    )?))
}
