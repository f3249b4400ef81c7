//! The plain records that the other crates hand to each other, so that answers and states are
//! compared as they are. They have no logic of document 01: `reference` and `fast` share nothing
//! else.

#![forbid(unsafe_code)]

pub mod layout;

/// Why a call was refused: the number of document 01 and the index that it gives with it.
#[derive(Clone, Copy, Debug, PartialEq, Eq)]
pub struct Refusal {
    pub number: u32,
    pub index: u32,
}

impl Refusal {
    /// A refusal that names the entry at `index`.
    pub fn at(number: u32, index: usize) -> Refusal {
        let index = u32::try_from(index).expect("an index is below 65,536");
        Refusal { number, index }
    }

    /// A refusal that names no entry: its index is 0.
    pub const fn whole(number: u32) -> Refusal {
        Refusal { number, index: 0 }
    }
}

/// The 64-bit answer of a C function taken apart: the value of an accepted call, or
/// 4,294,967,296 × refusal number + index.
pub fn decode(answer: u64) -> Result<u32, Refusal> {
    let number = (answer >> 32) as u32;
    let low = answer as u32;
    if number == 0 { Ok(low) } else { Err(Refusal { number, index: low }) }
}

/// A task, which document 01 calls a *loop*.
#[derive(Clone, Copy, Debug, PartialEq, Eq)]
pub struct Task {
    /// T.
    pub separation: u32,
    /// C.
    pub budget: u32,
    /// Y, the priority offset.
    pub offset: u32,
    /// D, the deadline of edition 2; an unused place in edition 1.
    pub deadline: u32,
}

impl Task {
    /// A task as edition 1 has it: the place of its deadline is unused.
    pub const fn new(separation: u32, budget: u32, offset: u32) -> Task {
        Task { separation, budget, offset, deadline: 0 }
    }
}

/// A core on which nothing ran.
pub const IDLE: u8 = 255;

/// What a step says: the task that ran on each core, or `IDLE`, and each task's
/// response (finish tick minus release tick), or 0 for one that did not finish.
#[derive(Clone, Copy, Debug, PartialEq, Eq)]
pub struct Report {
    pub runs: [u8; 8],
    pub responses: [u32; 16],
}

impl Report {
    /// Every core idle and no task finished.
    pub const IDLE: Report = Report { runs: [IDLE; 8], responses: [0; 16] };
}

#[cfg(test)]
mod tests {
    use super::{Refusal, decode};

    #[test]
    fn an_answer_is_a_value_or_a_number_and_an_index() {
        assert_eq!(decode(0), Ok(0));
        assert_eq!(decode(16), Ok(16));
        assert_eq!(decode(u64::from(u32::MAX)), Ok(u32::MAX));
        assert_eq!(decode(4_294_967_296), Err(Refusal { number: 1, index: 0 }));
        assert_eq!(decode(7 * 4_294_967_296 + 15), Err(Refusal { number: 7, index: 15 }));
    }
}
