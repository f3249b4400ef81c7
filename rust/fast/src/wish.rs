//! Offsets from wished responses: 1 to 7, 26, 28, 9 to 11, 27 and 24.
//!
//! The *room* of a task is W − C, for its offset and its slack together. The slack is raised from
//! zeros, with the smaller of T and room − x as offset, so that x + Y is the smaller of x + T and
//! room. As in `slack` it depends on the need alone: x(d) is the smallest slack for the need d.

use crate::refuse;
use crate::slack::{Ranking, Rates, Smallest};
use crate::table::{SEPARATION, Sections, TASKS, Tasks, read_wishes};
use records::Refusal;

/// Rounds before the first leap: most sheets take fewer, and a leap costs as much as m of them.
const ROUNDS_BEFORE_LEAPS: u32 = 64;

/// No solution needs more: A / H is at most m × T + (m − 1) × x with T and x at their largest, and
/// x is below d / m + 1, so a need d is below m × m × (T + 1).
const LARGEST_NEED: u64 = 6_500_000;

/// Finds offsets and slack for a wish sheet and writes offset, slack and bound of each task to
/// `out`, as the C function does. After some rounds it takes many in one.
pub fn wish_into(sheet: &[u8], out: &mut [u8]) -> Result<usize, Refusal> {
    let sheet = Sheet::read(sheet)?;
    let (slack, _) = Search::of(&sheet)?.raise::<true>();
    write(&sheet, slack, out)
}

/// The same round by round, for measuring what leaping gains.
pub fn wish_by_rounds_into(sheet: &[u8], out: &mut [u8]) -> Result<usize, Refusal> {
    let sheet = Sheet::read(sheet)?;
    let (slack, _) = Search::of(&sheet)?.raise::<false>();
    write(&sheet, slack, out)
}

/// How many rounds a sheet takes round by round, whether it has a solution or not; or the number
/// that it meets before 27.
pub fn wish_rounds(sheet: &[u8]) -> Result<u32, Refusal> {
    let sheet = Sheet::read(sheet)?;
    let (_, rounds) = Search::of(&sheet)?.raise::<false>();
    Ok(rounds)
}

/// The tasks of a sheet, with the offsets at zero slack in their wishes' place, and their rooms.
struct Sheet {
    cores: usize,
    tasks: Tasks,
    room: [u32; TASKS],
    offers_slack: bool,
}

impl Sheet {
    /// 1 to 7, 26 and 28.
    fn read(bytes: &[u8]) -> Result<Sheet, Refusal> {
        let sections = Sections::split(bytes)?;
        let cores = sections.cores()?;
        let mut tasks = Tasks::NONE;
        read_wishes(sections.tasks, cores, &mut tasks)?;
        let mut room = [0; TASKS];
        for (room, task) in room.iter_mut().zip(&mut tasks.places[..tasks.count]) {
            let [separation, budget, wish, _] = task;
            *room = *wish - *budget;
            *wish = (*separation).min(*room);
        }
        Ok(Sheet { cores, tasks, room, offers_slack: !sections.slack.is_empty() })
    }
}

struct Search<'a> {
    rates: Rates<'a>,
    room: &'a [u32; TASKS],
    smallest: Smallest,
}

impl Search<'_> {
    /// 9 to 11.
    fn of(sheet: &Sheet) -> Result<Search<'_>, Refusal> {
        let rates = Rates::of(sheet.tasks.used(), sheet.cores)?;
        if sheet.offers_slack {
            return refuse(11, 0);
        }
        let smallest = Smallest::of(sheet.tasks.used(), sheet.cores);
        Ok(Search { rates, room: &sheet.room, smallest })
    }

    /// The least slack of all solutions, or nothing where there is none; and the rounds taken.
    fn raise<const LEAPS: bool>(&self) -> (Option<[u32; TASKS]>, u32) {
        let mut ranking = Ranking::new();
        let mut slack = [0; TASKS];
        let (mut before, mut rounds) = (0, 0);
        loop {
            rounds += 1;
            let mut need = self.amount(&slack, &mut ranking).div_ceil(self.hyperperiod()) as u32;
            if need == before {
                return (Some(slack), rounds);
            }
            if LEAPS && rounds >= ROUNDS_BEFORE_LEAPS {
                match self.leap(need, &mut ranking) {
                    Some(further) => need = further,
                    None => return (None, rounds),
                }
            }
            before = need;
            self.smallest.put(need, &mut slack);
            if slack.iter().zip(self.room).any(|(x, room)| x > room) {
                return (None, rounds);
            }
        }
    }

    /// The smallest need from this one on that a solution could have, or nothing where none could.
    ///
    /// Each such need is e + m × j for one of m numbers e and some j. There, a task with slack at e
    /// has j ticks more of it. If it is counted at e or *cut*, that is with x + T at or above its
    /// room, each of these ticks adds its share to A: A rises by `slope` for each, at least.
    fn leap(&self, need: u32, ranking: &mut Ranking) -> Option<u32> {
        let cores = self.rates.cores as u64;
        let mut slack = [0; TASKS];
        let mut further = LARGEST_NEED + 1;
        for e in need..need + self.rates.cores as u32 {
            self.smallest.put(e, &mut slack);
            let amount = self.amount(&slack, ranking);
            let e = u64::from(e);
            let missing = amount.saturating_sub(self.hyperperiod() * e);
            let gain = cores * self.hyperperiod() - self.slope(&slack, ranking);
            if missing == 0 {
                further = further.min(e);
            } else if gain > 0 {
                further = further.min(e + cores * missing.div_ceil(gain));
            }
        }
        (further <= LARGEST_NEED).then_some(further as u32)
    }

    /// A at this slack. Beyond the room, where there is no solution, it goes on as below it.
    fn amount(&self, slack: &[u32; TASKS], ranking: &mut Ranking) -> u64 {
        let Rates { tasks, cores, share, .. } = &self.rates;
        let mut weights = [0; TASKS];
        let mut surpluses = 0;
        for (i, task) in tasks.iter().enumerate() {
            let whole = slack[i] + task[SEPARATION];
            let reach = whole.min(self.room[i]);
            weights[i] = share[i] * u64::from(reach);
            surpluses += share[i] * u64::from(whole - reach);
        }
        surpluses + ranking.largest(&weights, cores - 1, tasks.len())
    }

    fn slope(&self, slack: &[u32; TASKS], ranking: &Ranking) -> u64 {
        let Rates { tasks, cores, share, .. } = &self.rates;
        let counted = ranking.counted(cores - 1);
        let mut slope = 0;
        for (i, task) in tasks.iter().enumerate() {
            let cut = slack[i] + task[SEPARATION] >= self.room[i];
            let rises = slack[i] > 0 && (cut || counted >> i & 1 == 1);
            slope += if rises { share[i] } else { 0 };
        }
        slope
    }

    fn hyperperiod(&self) -> u64 {
        u64::from(self.rates.hyperperiod)
    }
}

/// 27, 24, and the answer's bytes.
fn write(sheet: &Sheet, slack: Option<[u32; TASKS]>, out: &mut [u8]) -> Result<usize, Refusal> {
    let Some(slack) = slack else {
        return refuse(27, 0);
    };
    let count = sheet.tasks.count;
    let Some(out) = out.get_mut(..12 * count) else {
        return refuse(24, 0);
    };
    for (k, entry) in out.as_chunks_mut::<12>().0.iter_mut().enumerate() {
        let [separation, budget, ..] = sheet.tasks.places[k];
        let reach = (slack[k] + separation).min(sheet.room[k]);
        let numbers = [reach - slack[k], slack[k], reach + budget];
        for (field, number) in entry.as_chunks_mut().0.iter_mut().zip(numbers) {
            *field = u32::to_le_bytes(number);
        }
    }
    Ok(count)
}
