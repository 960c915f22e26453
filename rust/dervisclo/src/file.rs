//! The table file, `*.dvt`, as `docs/TABLE-FILE.md` has it: the magic, two lengths, the words, the pool.
//!
//! [`Table::to_file`] and [`Table::from_file`] are the way to use it.
//!
//! ```
//! use dervisclo::{file::FileRefusal, Table};
//!
//! let table = Table::document(|document| document.scalar_type("Date", |_| ()));
//! let file = table.to_file()?;
//! assert_eq!(file.len(), 16 + 4 * table.words.len() + table.pool.len());
//!
//! let refusal = Table::from_file(&file[..50]).unwrap_err();
//! assert_eq!(refusal, FileRefusal::Length { told: Some(60), found: 50 });
//! # Ok::<(), dervisclo::TableRefusal>(())
//! ```

use crate::table::{MOST_NODES, MOST_POOL, WORDS};
use crate::{Table, TableRefusal, refusals};
use std::error::Error;
use std::fmt;

/// The first eight bytes of every table file.
///
/// ```
/// assert_eq!(&dervisclo::file::MAGIC, b"DVTABLE1");
/// ```
pub const MAGIC: [u8; 8] = *b"DVTABLE1";

/// Length of what stands before the words: the magic, the number of words, the number of pool bytes.
///
/// ```
/// let file = dervisclo::Table::default().to_file()?;
/// assert_eq!(file.len(), dervisclo::file::HEADER);
/// # Ok::<(), dervisclo::TableRefusal>(())
/// ```
pub const HEADER: usize = 16;

/// Length of the longest file whose table can be accepted: 8,192 nodes and a pool of 65,536 bytes.
///
/// ```
/// assert_eq!(dervisclo::file::LONGEST, 229_392);
/// ```
pub const LONGEST: u64 = (HEADER + 4 * WORDS * MOST_NODES + MOST_POOL) as u64;

/// Why a file holds no table.
///
/// ```
/// use dervisclo::Table;
///
/// let refusal = Table::from_file(b"DVTABLE2").unwrap_err();
/// assert_eq!(refusal.to_string(), "20 (file) at byte 0: the first eight bytes are not `DVTABLE1`");
/// ```
#[derive(Clone, Copy, Debug, Eq, PartialEq)]
pub enum FileRefusal {
    /// 20: the first eight bytes are not [`MAGIC`].
    Magic,
    /// 21: the file ends before its lengths are told, or is not as long as they tell.
    Length {
        /// The length that the file tells of itself, where it does.
        told: Option<u64>,
        /// The bytes that were found.
        found: u64,
    },
}

impl FileRefusal {
    /// The number of this refusal, beyond those of document 01.
    ///
    /// ```
    /// assert_eq!(dervisclo::file::FileRefusal::Magic.number(), 20);
    /// ```
    pub fn number(self) -> u32 {
        match self {
            Self::Magic => 20,
            Self::Length { .. } => 21,
        }
    }

    /// The byte of the file that the refusal names: the first.
    ///
    /// ```
    /// assert_eq!(dervisclo::file::FileRefusal::Magic.place(), 0);
    /// ```
    pub fn place(self) -> usize {
        0
    }
}

impl fmt::Display for FileRefusal {
    fn fmt(&self, f: &mut fmt::Formatter<'_>) -> fmt::Result {
        refusals::write(f, self.number(), format_args!("byte {}", self.place()))?;
        match self {
            Self::Magic => Ok(()),
            Self::Length { told: None, found } => {
                write!(f, "; the lengths end at byte 16, {found} are found")
            }
            Self::Length {
                told: Some(told),
                found,
            } => write!(f, "; {told} bytes are told, {found} are found"),
        }
    }
}

impl Error for FileRefusal {}

/// The length that a file tells of itself. What stands past its first [`HEADER`] bytes is not looked at.
///
/// ```
/// use dervisclo::file::told_length;
///
/// assert_eq!(told_length(b"DVTABLE1\x0f\0\0\0\x01\0\0\0"), Ok(16 + 4 * 15 + 1));
/// ```
pub fn told_length(file: &[u8]) -> Result<u64, FileRefusal> {
    let (words, pool) = lengths(file)?;
    Ok(HEADER as u64 + 4 * u64::from(words) + u64::from(pool))
}

/// The numbers of words and of pool bytes.
fn lengths(file: &[u8]) -> Result<(u32, u32), FileRefusal> {
    let Some(numbers) = file.strip_prefix(&MAGIC) else {
        return Err(FileRefusal::Magic);
    };
    match numbers.first_chunk::<8>() {
        Some(&[a, b, c, d, e, f, g, h]) => Ok((
            u32::from_le_bytes([a, b, c, d]),
            u32::from_le_bytes([e, f, g, h]),
        )),
        None => Err(FileRefusal::Length {
            told: None,
            found: file.len() as u64,
        }),
    }
}

pub(crate) fn read(file: &[u8]) -> Result<Table, FileRefusal> {
    let told = told_length(file)?;
    let found = file.len() as u64;
    if told != found {
        return Err(FileRefusal::Length {
            told: Some(told),
            found,
        });
    }
    let (words, _) = lengths(file)?;
    let (words, pool) = file[HEADER..].split_at(4 * words as usize);
    let (words, _) = words.as_chunks::<4>();
    Ok(Table {
        words: words.iter().copied().map(u32::from_le_bytes).collect(),
        pool: pool.to_vec(),
    })
}

pub(crate) fn write(table: &Table) -> Result<Vec<u8>, TableRefusal> {
    let number = |length: usize| u32::try_from(length).map_err(|_| TableRefusal::Size);
    let mut file = MAGIC.to_vec();
    file.extend(number(table.words.len())?.to_le_bytes());
    file.extend(number(table.pool.len())?.to_le_bytes());
    file.extend(table.words.iter().flat_map(|word| word.to_le_bytes()));
    file.extend_from_slice(&table.pool);
    Ok(file)
}
