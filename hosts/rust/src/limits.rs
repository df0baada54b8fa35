//! The sizes of a sheet and of its lists.

/// The foils of a sheet.
pub const FOILS: usize = 8;
/// The places of the table that the foils of a sheet share.
pub const PLACES: usize = 512;
/// The entries that a foil may have.
pub const ENTRIES: usize = 128;
/// The entries that a foil is sure of, whatever the others have.
pub const SURE: usize = 32;
/// The strips that a foil may have, and the numbers of a list with room for them.
pub const STRIPS: usize = 4096;
pub const STRIP_NUMBERS: usize = 4 * STRIPS;
/// The corners that are enough for any lay or find, and for a join unless its net cannot be lifted (11); and the
/// numbers of a list with room for them.
pub const CORNERS: usize = 8192;
pub const CORNER_NUMBERS: usize = 2 * CORNERS;
/// The nets that a list has at most.
pub const WISHES: usize = 40;
/// The nets that the report of a carry must have room for.
pub const REPORT: usize = 128;
/// The bytes of the longest saved foil.
pub const FILE_BYTES: usize = 12 + 11 * ENTRIES;
/// The bytes of a line of a slip, and of the longest slip.
pub const SLIP_LINE: usize = 33;
pub const SLIP_BYTES: usize = SLIP_LINE * ENTRIES;
/// The bytes of stack that are enough for any call.
pub const STACK: usize = 2 * 1024 * 1024;
