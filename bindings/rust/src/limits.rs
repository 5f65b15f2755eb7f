//! How large things may be. What is larger is refused.

/// The most bytes that a document has. With more the record is refused, [`Refusal::Count`](crate::Refusal::Count).
pub const MAX_DOCUMENT: usize = 16_384;

/// The most bytes that a line has, those past its line feed included. With more it is refused, [`Refusal::Count`](crate::Refusal::Count).
pub const MAX_LINE: usize = 16_384;

/// The greatest column that a line starts at. A greater one is refused, [`Refusal::Options`](crate::Refusal::Options).
pub const MAX_COLUMN: usize = 16_384;

/// The most events that a record has. With more it is refused, [`Refusal::Count`](crate::Refusal::Count).
pub const MAX_EVENTS: usize = 2_048;

/// The most events of a record that are open at once. With more it is refused, [`Refusal::Event`](crate::Refusal::Event).
pub const MAX_DEPTH: usize = 64;

/// The most events that a result has. With more it is refused, [`Refusal::Result`](crate::Refusal::Result).
pub const MAX_RESULT: usize = 8_000;
