//! The safe Rust side of the proved engine: [`Engine`] holds the 653 words that a controller lends
//! and makes the three C calls on them. [`layout`] says where each field stands among the words.
//!
//! The engine is opened on a show table. A release hands it one job of a task; a step lets the jobs
//! with the earliest priority points run for one tick and says who ran and who finished. What is
//! wrong with a table, a release or the words is refused, and a refused call changes no word.
//!
//! ```
//! use dahomike_engine::{Engine, IDLE, Refusal};
//!
//! /// Two cores with the labels 0 and 1, three tasks with T, C and Y of each, and no slack.
//! fn table() -> Vec<u8> {
//!     let mut table = vec![1, 2, 0, 1, 3];
//!     for field in [2, 1, 2, 2, 1, 2, 3, 3, 0u32] {
//!         table.extend(field.to_le_bytes());
//!     }
//!     table.push(0);
//!     table
//! }
//!
//! let mut engine = Engine::open(&table())?;
//! engine.release(0, 1)?;
//! engine.release(1, 1)?;
//! engine.release(2, 3)?;
//!
//! // The priority point of task 2 is 0, that of the others 2: task 2 has the first core.
//! let report = engine.step()?;
//! assert_eq!(report.runs[..3], [2, 0, IDLE]);
//! // Task 0 has finished, 1 tick after its release.
//! assert_eq!(report.responses[..3], [1, 0, 0]);
//!
//! // Its next release comes one tick too early.
//! assert_eq!(engine.release(0, 1), Err(Refusal { number: 22, index: 0 }));
//! # Ok::<(), Refusal>(())
//! ```

pub use records::{IDLE, Refusal, Report, layout};

use layout::WORDS;
use records::decode;

mod ffi {
    // A `&[u8]` of the proved code passes as a pointer and then a length, a `&mut` to an array of
    // known length as a pointer. `.ci/documents` compares these declarations with its source as
    // text. The functions keep no reference, and any words may stand behind one. So the two that
    // take references alone are safe to call.
    unsafe extern "C" {
        pub unsafe fn dahomike_engine_open(
            table: *const u8,
            table_len: usize,
            state: &mut [u32; 653],
        ) -> u64;

        pub safe fn dahomike_engine_release(state: &mut [u32; 653], task: u32, demand: u32) -> u64;

        pub safe fn dahomike_engine_step(
            state: &mut [u32; 653],
            runs: &mut [u8; 8],
            responses: &mut [u32; 16],
        ) -> u64;
    }
}

/// An engine: the words of its state, which can be kept, copied and handed back later.
#[derive(Clone, Debug, PartialEq, Eq)]
pub struct Engine {
    words: [u32; WORDS],
}

impl Engine {
    /// Opens the engine on a show table, at tick 0 with nothing pending. A table that a judgement
    /// refuses is refused with the same number, 1 to 13 or 28, and the same index.
    ///
    /// ```
    /// use dahomike_engine::{Engine, Refusal};
    ///
    /// assert_eq!(Engine::open(&[]), Err(Refusal { number: 1, index: 0 }));
    /// ```
    pub fn open(table: &[u8]) -> Result<Engine, Refusal> {
        let mut engine = Engine { words: [0; WORDS] };
        engine.reopen(table)?;
        Ok(engine)
    }

    /// Opens this engine anew on a show table, whatever its words are. Where the table is refused,
    /// the words stay as they are.
    pub fn reopen(&mut self, table: &[u8]) -> Result<(), Refusal> {
        // SAFETY: the proved function asks for a slice that is not null and words that do not
        // overlap it. A Rust slice is never null, also where it is empty, and the words, being
        // borrowed mutably, overlap no other borrow.
        let answer =
            unsafe { ffi::dahomike_engine_open(table.as_ptr(), table.len(), &mut self.words) };
        taken(answer)
    }

    /// Releases one job of a task at the clock, with its demand as its work. It meets
    ///
    /// - 18 where the words say no sound state,
    /// - 19 where the clock stands at 4,000,000,000,
    /// - 20 where the task is not in the table,
    /// - 21 where the demand is not 1 to C,
    /// - 22 where the task's last taken release is less than T ticks ago,
    /// - 23 where the task holds 16 unfinished jobs.
    pub fn release(&mut self, task: u32, demand: u32) -> Result<(), Refusal> {
        taken(ffi::dahomike_engine_release(&mut self.words, task, demand))
    }

    /// Steps the engine by one tick: who ran on each core, and the response of each task that
    /// finished a job. It meets 18 and 19 as a release does.
    pub fn step(&mut self) -> Result<Report, Refusal> {
        let mut report = Report::IDLE;
        self.step_into(&mut report)?;
        Ok(report)
    }

    /// The same step with its report in a lent one, which stays as it is where the step is refused.
    pub fn step_into(&mut self, report: &mut Report) -> Result<(), Refusal> {
        let Report { runs, responses } = report;
        taken(ffi::dahomike_engine_step(&mut self.words, runs, responses))
    }

    /// The words of the state.
    ///
    /// ```
    /// use dahomike_engine::{Engine, Refusal, layout};
    ///
    /// // One task (T, C, Y) = (10, 9, 10) on two cores.
    /// let fields = [10, 9, 10u32].map(u32::to_le_bytes).concat();
    /// let mut engine = Engine::open(&[&[1, 2, 0, 1, 1], &fields[..], &[0]].concat())?;
    /// engine.step()?;
    /// let words = engine.words();
    /// assert_eq!(words[layout::CLOCK], 1);
    /// assert_eq!(words[layout::FIELDS][..4], [10, 9, 10, 0]);
    /// # Ok::<(), Refusal>(())
    /// ```
    pub fn words(&self) -> &[u32; WORDS] {
        &self.words
    }

    /// An engine of any words. A call on words that do not fit their fields, or that say no sound
    /// state, answers 18.
    ///
    /// ```
    /// use dahomike_engine::{Engine, Refusal};
    ///
    /// let mut engine = Engine::from_words([0; 653]);
    /// assert_eq!(engine.step(), Err(Refusal { number: 18, index: 0 }));
    /// assert_eq!(engine.words(), &[0; 653]);
    /// ```
    pub fn from_words(words: [u32; WORDS]) -> Engine {
        Engine { words }
    }
}

/// Of 0, or 4,294,967,296 × refusal number + index.
fn taken(answer: u64) -> Result<(), Refusal> {
    let value = decode(answer)?;
    assert_eq!(value, 0, "a call that is not refused answers 0");
    Ok(())
}
