//! Work memory.

#[cfg(feature = "alloc")]
use alloc::{boxed::Box, vec};
use core::fmt;

/// The memory that a call on a record works in: 65,536 bytes, made or lent once and used for call after call.
///
/// What it held before never matters to a call, and it is all zero after each one: all of it, so there is no use in more than is needed.
///
/// ```
/// use ledgerlark::{read, Options, Work};
///
/// let mut memory = [0xff; Work::LENGTH];
/// let mut work = Work::from(&mut memory);
/// for record in [[0; 8].as_slice(), b"\x01\0\0\0a\0\0\0\0"] {
///     read(record, Options::default(), &mut work)?;
///     assert!(work.bytes().iter().all(|&byte| byte == 0));
/// }
/// # Ok::<(), ledgerlark::Refusal>(())
/// ```
pub struct Work<'a> {
    memory: Memory<'a>,
}

/// Whose memory it is.
enum Memory<'a> {
    Lent(&'a mut [u8]),
    #[cfg(feature = "alloc")]
    Own(Box<[u8]>),
}

impl Work<'_> {
    /// The least number of bytes that a call asks for. With less it is refused, [`Refusal::Work`](crate::Refusal::Work).
    pub const LENGTH: usize = 65_536;

    /// The memory, to be looked at.
    #[must_use]
    pub fn bytes(&self) -> &[u8] {
        match &self.memory {
            Memory::Lent(bytes) => bytes,
            #[cfg(feature = "alloc")]
            Memory::Own(bytes) => bytes,
        }
    }

    /// The memory, to be lent on.
    pub(crate) fn bytes_mut(&mut self) -> &mut [u8] {
        match &mut self.memory {
            Memory::Lent(bytes) => bytes,
            #[cfg(feature = "alloc")]
            Memory::Own(bytes) => bytes,
        }
    }
}

#[cfg(feature = "alloc")]
impl Work<'static> {
    /// Work memory of [`LENGTH`](Work::LENGTH) bytes of its own. Needs the feature `alloc`.
    #[must_use]
    pub fn new() -> Work<'static> {
        Work::from(vec![0; Work::LENGTH].into_boxed_slice())
    }
}

#[cfg(feature = "alloc")]
impl Default for Work<'static> {
    fn default() -> Work<'static> {
        Work::new()
    }
}

/// Lent memory, of any length and with anything in it.
impl<'a> From<&'a mut [u8]> for Work<'a> {
    fn from(memory: &'a mut [u8]) -> Work<'a> {
        Work {
            memory: Memory::Lent(memory),
        }
    }
}

/// The same, of an array.
impl<'a, const N: usize> From<&'a mut [u8; N]> for Work<'a> {
    fn from(memory: &'a mut [u8; N]) -> Work<'a> {
        Work::from(memory.as_mut_slice())
    }
}

/// Memory of its own, of any length and with anything in it. Needs the feature `alloc`.
#[cfg(feature = "alloc")]
impl From<Box<[u8]>> for Work<'static> {
    fn from(memory: Box<[u8]>) -> Work<'static> {
        Work {
            memory: Memory::Own(memory),
        }
    }
}

/// The length alone: the bytes are many, and zero.
impl fmt::Debug for Work<'_> {
    fn fmt(&self, f: &mut fmt::Formatter<'_>) -> fmt::Result {
        write!(f, "Work({} bytes)", self.bytes().len())
    }
}
