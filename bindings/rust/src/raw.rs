//! The calls as the library has them, on words: for who keeps words of their own, sound or not.
//!
//! The rest of this crate is made of these. Any words at all may be lent: what isn't a sound table is refused, and a
//! refusal changes no word. `include/kettleflock.h` says of each call what it counts and what it is refused with.
//!
//! ```
//! use kettleflock::raw;
//!
//! let mut table = [0; 120];
//! assert_eq!(raw::check(&table).number, 1);
//! assert_eq!(raw::new(8, 0, &[2, 0], &mut table), raw::Answer { number: 0, count: 2 });
//! assert_eq!(raw::check(&table), raw::Answer { number: 0, count: 2 });
//! ```
//!
//! [`layout`](crate::layout) has the lengths of tables and the places of their words.

/// What a call gives: a refusal's number, or 0, and a count.
#[derive(Clone, Copy, Debug, PartialEq, Eq, Hash)]
#[must_use = "a call may have been refused"]
#[repr(C)]
pub struct Answer {
    /// 0, or why the call was refused.
    pub number: u32,
    /// What the call counts; 0 on a refusal.
    pub count: u32,
}

/// What [`ahead`] gives: a refusal's number, or 0, and two masks, in which bit d stands for device d.
#[derive(Clone, Copy, Debug, PartialEq, Eq, Hash)]
#[must_use = "a call may have been refused"]
#[repr(C)]
pub struct Masks {
    /// 0, or why the call was refused.
    pub number: u32,
    /// The devices of whom the source knows more than the target; 0 on a refusal.
    pub source: u32,
    /// The devices of whom the target knows more than the source; 0 on a refusal.
    pub target: u32,
}

/// The version of the library that this crate belongs to, as [`version`] gives it.
pub const VERSION: u32 = 7;

mod exports {
    use super::{Answer, Masks};

    extern "C" {
        pub fn kf_check(table: *const u32, table_length: usize) -> Answer;
        pub fn kf_new(
            columns: u32,
            device: u32,
            plan: *const u32,
            plan_length: usize,
            table: *mut u32,
            table_length: usize,
        ) -> Answer;
        pub fn kf_widen(
            table: *const u32,
            table_length: usize,
            wide: *mut u32,
            wide_length: usize,
        ) -> Answer;
        pub fn kf_event(
            table: *mut u32,
            table_length: usize,
            row: u32,
            event: u32,
            mark: u32,
            class: u32,
        ) -> Answer;
        pub fn kf_pass(
            source: *const u32,
            source_length: usize,
            target: *mut u32,
            target_length: usize,
            row: u32,
            answers: *mut u32,
            answers_length: usize,
        ) -> Answer;
        pub fn kf_settle(
            source: *const u32,
            source_length: usize,
            target: *mut u32,
            target_length: usize,
            row: u32,
            choice: u32,
            mark: u32,
            class: u32,
        ) -> Answer;
        pub fn kf_beneath(table: *const u32, table_length: usize, row: u32) -> Answer;
        pub fn kf_standing(
            source: *const u32,
            source_length: usize,
            target: *const u32,
            target_length: usize,
            row: u32,
        ) -> Answer;
        pub fn kf_standing_side(
            source: *const u32,
            source_length: usize,
            target: *const u32,
            target_length: usize,
            row: u32,
        ) -> u32;
        pub fn kf_ahead(
            source: *const u32,
            source_length: usize,
            target: *const u32,
            target_length: usize,
            row: u32,
        ) -> Masks;
        pub fn kf_version() -> u32;
    }
}

// Each call below is sound for one reason: a pointer and a length that come from one borrowed slice are valid for the
// call, a `&mut` slice overlaps no other, and the library keeps no pointer.

/// Judges a table; counts its rows.
pub fn check(table: &[u32]) -> Answer {
    // SAFETY: see above.
    unsafe { exports::kf_check(table.as_ptr(), table.len()) }
}

/// Makes a new table of 8 or 16 columns for a device from a plan, a number a row: 0 a sheet, k a folder of size k.
/// Counts its rows.
///
/// ```
/// use kettleflock::{raw, Columns};
///
/// let mut table = vec![0; Columns::Sixteen.length(2)];
/// assert_eq!(raw::new(16, 15, &[2, 0], &mut table).number, 0);
/// assert_eq!(raw::new(12, 15, &[2, 0], &mut table).number, 19);
/// ```
pub fn new(columns: u32, device: u32, plan: &[u32], table: &mut [u32]) -> Answer {
    // SAFETY: see above.
    unsafe {
        exports::kf_new(
            columns,
            device,
            plan.as_ptr(),
            plan.len(),
            table.as_mut_ptr(),
            table.len(),
        )
    }
}

/// Writes a table of 8 columns with 16: the same events and times, zeros in the new columns. Counts its rows.
///
/// ```
/// use kettleflock::{raw, Columns};
///
/// let mut table = vec![0; Columns::Eight.length(2)];
/// let mut wide = vec![0; Columns::Sixteen.length(2)];
/// assert_eq!(raw::new(8, 0, &[2, 0], &mut table).number, 0);
/// assert_eq!(raw::widen(&table, &mut wide), raw::Answer { number: 0, count: 2 });
/// assert_eq!(raw::check(&wide).number, 0);
/// ```
pub fn widen(table: &[u32], wide: &mut [u32]) -> Answer {
    // SAFETY: see above.
    unsafe { exports::kf_widen(table.as_ptr(), table.len(), wide.as_mut_ptr(), wide.len()) }
}

/// Creates (1), changes (2) or removes (3) a sheet; counts the new stamp. A removal ignores mark and class.
pub fn event(table: &mut [u32], row: u32, event: u32, mark: u32, class: u32) -> Answer {
    // SAFETY: see above.
    unsafe { exports::kf_event(table.as_mut_ptr(), table.len(), row, event, mark, class) }
}

/// Passes a row and all beneath it from source to target; counts the rows looked at. Each row's answer is 0 keep,
/// 1 copy, 2 remove, 3 conflict, 4 walked or 5 passed over.
pub fn pass(source: &[u32], target: &mut [u32], row: u32, answers: &mut [u32]) -> Answer {
    // SAFETY: see above.
    unsafe {
        exports::kf_pass(
            source.as_ptr(),
            source.len(),
            target.as_mut_ptr(),
            target.len(),
            row,
            answers.as_mut_ptr(),
            answers.len(),
        )
    }
}

/// Settles a conflict by theirs (1), own (2) or new (3); counts the new stamp. Theirs and own ignore mark and class.
pub fn settle(
    source: &[u32],
    target: &mut [u32],
    row: u32,
    choice: u32,
    mark: u32,
    class: u32,
) -> Answer {
    // SAFETY: see above.
    unsafe {
        exports::kf_settle(
            source.as_ptr(),
            source.len(),
            target.as_mut_ptr(),
            target.len(),
            row,
            choice,
            mark,
            class,
        )
    }
}

/// Shows all rows beneath a folder; counts their words, which start where the next row does.
pub fn beneath(table: &[u32], row: u32) -> Answer {
    // SAFETY: see above.
    unsafe { exports::kf_beneath(table.as_ptr(), table.len(), row) }
}

/// Shows the row that stands; counts its words, 0 on a conflict.
pub fn standing(source: &[u32], target: &[u32], row: u32) -> Answer {
    // SAFETY: see above.
    unsafe {
        exports::kf_standing(
            source.as_ptr(),
            source.len(),
            target.as_ptr(),
            target.len(),
            row,
        )
    }
}

/// Says who is ahead at a sheet where the rules say conflict, by its known times in the source and in the target.
pub fn ahead(source: &[u32], target: &[u32], row: u32) -> Masks {
    // SAFETY: see above.
    unsafe {
        exports::kf_ahead(
            source.as_ptr(),
            source.len(),
            target.as_ptr(),
            target.len(),
            row,
        )
    }
}

/// The version of the library that is linked: major * 65536 + minor.
///
/// ```
/// assert_eq!(kettleflock::raw::version(), kettleflock::raw::VERSION);
/// ```
#[must_use]
pub fn version() -> u32 {
    // SAFETY: it takes nothing.
    unsafe { exports::kf_version() }
}

/// In whose table the row that stands lies: 1 the source's, 2 the target's, 0 on a conflict or a refusal.
#[must_use]
pub fn standing_side(source: &[u32], target: &[u32], row: u32) -> u32 {
    // SAFETY: see above.
    unsafe {
        exports::kf_standing_side(
            source.as_ptr(),
            source.len(),
            target.as_ptr(),
            target.len(),
            row,
        )
    }
}
