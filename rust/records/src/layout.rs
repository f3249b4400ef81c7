//! Where each field of the engine's state stands among its words. A controller lends the state as
//! 653 words; include/dahomike_engine.h says the same to C.

use std::ops::Range;

/// The words of a state.
pub const WORDS: usize = 653;

/// The edition of the table part, 1 or 2.
pub const EDITION: usize = 0;

/// 1 where slack was offered, 0 where it was found.
pub const OFFERED: usize = 1;

/// m.
pub const CORES: usize = 2;

/// n.
pub const TASKS: usize = 3;

/// The label of each core.
pub const LABELS: Range<usize> = 4..12;

/// T, C, Y and D of each task, four words a task.
pub const FIELDS: Range<usize> = 12..76;

/// The slack of each task.
pub const SLACK: Range<usize> = 76..92;

/// The clock.
pub const CLOCK: usize = 92;

/// How many unfinished jobs each task holds.
pub const JOBS: Range<usize> = 93..109;

/// 1 for each task of which a release was taken, 0 for the others.
pub const RELEASED: Range<usize> = 109..125;

/// The tick of the last taken release of each task.
pub const LAST: Range<usize> = 125..141;

/// The remaining work in each of the 256 places for jobs. Places 16 × i to 16 × i + 15 are those of
/// task i, oldest job first.
pub const REMAINING: Range<usize> = 141..397;

/// The release tick in each of these places.
pub const RELEASE: Range<usize> = 397..653;
