//! The refusals of document 01, 'Turned down', and document 02 by number, and what every call does with its answer.

/// 'fewer than 4 bytes left for a record, or fewer than its length claims'
pub const CUT_OFF: u16 = 1;
/// 'length is not that of the kind and version'
pub const WRONG_LENGTH: u16 = 2;
/// 'not the kind due here'
pub const WRONG_KIND: u16 = 3;
/// 'version not 4 or 5, or above the highest known; highest known not 4 or 5'; M-102: 'may be 4, 5 or 6'
pub const WRONG_VERSION: u16 = 4;
/// 'k above 10, or an order file's k not the path's'; M-111: 'k goes up to 6, above that 5'; M-112: 'For k up to 3, above that 5'; M-104: 'Tours are
/// for k up to 7; above that 5 is given'
pub const WRONG_K: u16 = 5;
/// 'a stop's field out of range'; M-111: 'another value among the first n is 6'
pub const OUT_OF_RANGE: u16 = 6;
/// 'bytes after the end record'
pub const BYTES_AFTER: u16 = 7;
/// 'a lent buffer too short, a table not n² long, or k above 6 in the controller's calls or the program'; M-107: 'A second table of another length
/// is 8'
pub const WRONG_SIZE: u16 = 8;
/// 'a stop number n or more in an order'
pub const WRONG_STOP: u16 = 9;
/// 'an order not allowed'
pub const NOT_ALLOWED: u16 = 10;
/// 'an order file's total is not its order's'; M-109: '11 if a sum, place 0 included, is not the order's'
pub const WRONG_TOTAL: u16 = 11;
/// 'a fork bit outside 1 to n−1 set, or bits not the order's'
pub const WRONG_FORKS: u16 = 12;
/// M-102: 'any field not 0 that the version to be written lacks'
pub const LOST_FIELD: u16 = 13;
/// M-109: 'A fork out of range is 14'; M-101: 'the fork is not 1 to n−1'
pub const NO_SUCH_FORK: u16 = 14;
/// M-110: 'a name not 1 to 8'
pub const NO_SUCH_NAME: u16 = 15;
/// M-110: 'nothing kept under it when coming back'
pub const NOTHING_KEPT: u16 = 16;

/// The refusal of this number where the condition does not hold.
pub(super) fn require(condition: bool, number: u16) -> Result<(), u16> {
    if condition {
        Ok(())
    } else {
        Err(number)
    }
}

/// 'After success each output holds the result first and is untouched beyond.'
pub(super) fn put<T: Copy>(result: &[T], lent: &mut [T]) {
    lent[..result.len()].copy_from_slice(result);
}
