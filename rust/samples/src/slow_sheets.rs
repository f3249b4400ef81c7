//! The wish sheets that take the most rounds, of those that a search has found.
//!
//! All loops that are not counted lose a tick of offset with each tick of slack, and the shares add
//! up to m × H or one less, so that A rises by as much as m × H × x does: each round adds 1 to the
//! number that all slack depends on, nearly m × T times.

use reference::Table;

/// Separation, budget and wish.
type Wish = (u32, u32, u32);

/// 799,959 rounds, and no solution.
const SIXTEEN_UNSOLVED: [Wish; 16] = [
    (100_000, 46_672, 1_600_000),
    (100_000, 46_673, 1_600_000),
    (100_000, 46_666, 1_600_000),
    (100_000, 46_667, 1_600_000),
    (100_000, 46_668, 1_600_000),
    (100_000, 46_669, 1_600_000),
    (90_000, 89_999, 1_440_000),
    (100_000, 46_662, 222_363),
    (100_000, 46_663, 222_364),
    (100_000, 46_664, 222_365),
    (100_000, 46_665, 222_366),
    (100_000, 46_666, 222_367),
    (100_000, 46_667, 222_368),
    (100_000, 46_668, 222_369),
    (100_000, 46_669, 222_369),
    (100_000, 46_662, 222_364),
];

/// 785,322 rounds to a solution.
const SIXTEEN_SOLVED: [Wish; 16] = [
    (100_000, 47_216, 1_600_000),
    (100_000, 46_585, 1_600_000),
    (100_000, 46_586, 1_600_000),
    (100_000, 46_723, 1_600_000),
    (100_000, 46_948, 1_600_000),
    (100_000, 46_493, 1_600_000),
    (90_000, 89_999, 1_440_000),
    (100_000, 46_934, 222_859),
    (100_000, 46_727, 222_652),
    (100_000, 46_264, 222_189),
    (100_000, 46_449, 222_373),
    (100_000, 46_954, 222_867),
    (100_000, 46_747, 222_672),
    (100_000, 45_748, 221_686),
    (100_000, 46_709, 222_635),
    (100_000, 46_918, 222_843),
];

/// 799,926 rounds, and no solution.
const NINE_UNSOLVED: [Wish; 9] = [
    (100_000, 88_900, 1_600_000),
    (100_000, 88_889, 1_600_000),
    (100_000, 88_890, 1_600_000),
    (100_000, 88_891, 1_600_000),
    (100_000, 88_884, 1_600_000),
    (100_000, 88_885, 1_600_000),
    (100_000, 88_886, 1_600_000),
    (100_000, 88_887, 488_896),
    (100_000, 88_888, 488_895),
];

/// 678,384 rounds to a solution.
const NINE_SOLVED: [Wish; 9] = [
    (100_000, 87_045, 1_600_000),
    (100_000, 88_385, 1_600_000),
    (100_000, 87_138, 1_600_000),
    (100_000, 87_779, 1_600_000),
    (100_000, 88_492, 1_600_000),
    (100_000, 88_005, 1_600_000),
    (90_000, 89_999, 1_440_000),
    (100_000, 86_966, 492_483),
    (100_000, 86_191, 491_712),
];

/// 200,001 rounds, and no solution.
const THREE_UNSOLVED: [Wish; 3] =
    [(100_000, 95_155, 1_600_000), (100_000, 52_423, 173_789), (100_000, 52_422, 173_788)];

/// 195,555 rounds to a solution.
const THREE_SOLVED: [Wish; 3] =
    [(100_000, 95_699, 1_600_000), (100_000, 52_162, 173_936), (100_000, 52_138, 173_912)];

/// Sheets of edition 1, of 16 and of 9 loops on 8 cores and of 3 on 2, each without a solution and
/// with one.
pub fn slow_sheets() -> Vec<Table> {
    vec![
        Table::of(8, &SIXTEEN_UNSOLVED),
        Table::of(8, &SIXTEEN_SOLVED),
        Table::of(8, &NINE_UNSOLVED),
        Table::of(8, &NINE_SOLVED),
        Table::of(2, &THREE_UNSOLVED),
        Table::of(2, &THREE_SOLVED),
    ]
}

/// Two sheets that differ by one tick of one wish, the first without a solution, with nearly the
/// largest slack that there can be: seven loops fill a core each, the other two most of the eighth,
/// and the solution has no offset at any loop.
pub fn deep_sheets() -> [Table; 2] {
    let mut wishes = [(100_000, 100_000, 799_000); 9];
    wishes[7..].fill((100_000, 49_500, 754_813));
    let solved = Table::of(8, &wishes);
    wishes[8].2 -= 1;
    [Table::of(8, &wishes), solved]
}
