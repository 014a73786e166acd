//! The refusals: a number, and what it says of the calls that cite it in their row of the table.

pub struct Refusal {
    pub number: u32,
    pub words: &'static str,
}

const fn refusal(number: u32, words: &'static str) -> Refusal {
    Refusal { number, words }
}

pub const MISFIT_NEW: Refusal = refusal(1, "a length or B breaks the rules");
pub const MISFIT_NEW_KINDS: Refusal = refusal(1, "a length, B or a kind breaks the rules");
pub const MISFIT: Refusal = refusal(1, "a length, the stored B or a stored kind breaks the rules");
pub const MISFIT_OR_IMAGE: Refusal =
    refusal(1, "a length, the stored B or a stored kind breaks the rules, or the golden image's length");
pub const MISFIT_OR_REGISTERS: Refusal =
    refusal(1, "a length, the stored B or a stored kind breaks the rules, or the length of the fault registers");
pub const MISFIT_REGISTERS: Refusal = refusal(1, "the length of the fault registers breaks the rules");

pub const TABLE_OUTSIDE: Refusal = refusal(2, "a block of the table is outside the region");
pub const BLOCK_OUTSIDE: Refusal = refusal(2, "the block is outside the region");
pub const BLOCKS_OUTSIDE: Refusal = refusal(2, "one of the blocks is outside the region");

pub const MISALIGNED: Refusal = refusal(3, "the block is not a multiple of 4");
pub const MISALIGNED_SECTION: Refusal = refusal(3, "the block is not a multiple of 4, or the target not of 256");
pub const MISALIGNED_LARGE: Refusal = refusal(3, "the index or the target is not a multiple of 16");
pub const MISALIGNED_INDEX: Refusal = refusal(3, "the index is not a multiple of 16");

pub const BEYOND_TABLE: Refusal = refusal(4, "the index is too large");
pub const BEYOND_KINDS: Refusal = refusal(4, "the index or the number of the kind is too large");
pub const BEYOND_TABLES: Refusal = refusal(4, "the index or the table is too large");

pub const NOT_DATA: Refusal = refusal(5, "a block is not data");
pub const NOT_L1: Refusal = refusal(5, "a block is not of type L1");
pub const NOT_L2: Refusal = refusal(5, "the block is not of type L2");

pub const COUNTED: Refusal = refusal(6, "a counter of a block is above 0");
pub const ACTIVE: Refusal = refusal(6, "the table is active");
pub const LINKED: Refusal = refusal(6, "the block is linked");

pub const EXECUTABLE_HOLDER: Refusal = refusal(7, "the holder is executable");

pub const NO_FAULT: Refusal = refusal(8, "the entry is not a fault");
pub const NOT_ALL_FAULTS: Refusal = refusal(8, "one of the sixteen entries is not a fault");
pub const UNACCEPTED_ENTRY: Refusal = refusal(8, "the entry is not of an accepted form");
pub const NO_FAULT_OR_PAGE: Refusal =
    refusal(8, "the entry is not of an accepted form, or is one of the sixteen of a large page");
pub const NO_LARGE_PAGE: Refusal = refusal(8, "the sixteen entries are not those of one large page");
pub const UNACCEPTED_ENTRIES: Refusal = refusal(8, "an entry is not of an accepted form");

pub const UNLAWFUL_RIGHTS: Refusal = refusal(9, "the rights are above 7, or write or execute without read");

pub const UNFIT_TARGET: Refusal =
    refusal(10, "the target is outside the region, a table to be written, or the holder to be executed");
pub const UNFIT_LINK: Refusal = refusal(10, "the target is not an L2 block of the region");
pub const UNFIT_ENTRIES: Refusal =
    refusal(10, "an entry leads outside the region, links to a block that is not L2, or writes to a table");
pub const ASTRAY_ENTRY: Refusal = refusal(10, "the entry leads outside the region");
pub const ASTRAY_ENTRIES: Refusal = refusal(10, "an entry leads outside the region");

pub const CLASH: Refusal = refusal(11, "a block would be writable and executable");
pub const UNSIGNED: Refusal = refusal(12, "a block to execute is neither marked nor signed");
pub const OVERRUN: Refusal = refusal(13, "a counter would leave 0 to 2^22");

pub const NO_ACTIVE_TABLE: Refusal = refusal(21, "no table is active");
pub const FAULT_ENTRY: Refusal = refusal(22, "the walk meets a fault");
pub const RIGHT_LACKING: Refusal = refusal(23, "the right is lacking");
pub const BROKEN_WALK: Refusal =
    refusal(24, "the walk meets an entry that is not accepted or leads outside the region");
