//! A refusal told as one English sentence: document 02, §2. The document leaves the wording free,
//! so it is written out here a second time, each sentence whole.

use records::Refusal;

/// "A new part composes each refusal of 01 into one English sentence with the loop, core or entry
/// and the offending number in it. It is handed the refusal number, the index and the value found
/// there (0 where none is meant)."
pub fn sentence(number: u32, index: u32, value: u64) -> String {
    of_table(number, index, value)
        .or_else(|| of_loops(number, index, value))
        .or_else(|| of_slack(number, index, value))
        .or_else(|| of_log(number, index, value))
        .or_else(|| of_engine(number, index, value))
        .or_else(|| of_buffer(number, index, value))
        .or_else(|| of_wish(number, index, value))
        .or_else(|| of_conversion(number, index, value))
        .unwrap_or_else(|| of_unknown(number, index, value))
}

/// "The sentence goes to a lent buffer, its length comes back, and later bytes stay."
pub fn sentence_into(
    number: u32,
    index: u32,
    value: u64,
    out: &mut [u8],
) -> Result<usize, Refusal> {
    let sentence = sentence(number, index, value);
    // "25 the buffer is too short, and nothing is written."
    if out.len() < sentence.len() {
        return Err(Refusal::whole(25));
    }
    out[..sentence.len()].copy_from_slice(sentence.as_bytes());
    Ok(sentence.len())
}

/// 1 to 5: edition, length, cores, and the number of loops.
fn of_table(number: u32, index: u32, value: u64) -> Option<String> {
    let sentence = match number {
        1 => format!(
            "Refusal 1 for byte {index}: the edition must be 1 or 2, in a conversion the one that \
             the table is not in, not {value}."
        ),
        2 => format!(
            "Refusal 2 for byte {index} onwards: the table must have 4 bytes and 1 more for \
             each core, 12 for each loop (16 in edition 2) and 4 for each entry of slack, not \
             {value}."
        ),
        3 => format!(
            "Refusal 3 for core {index} onwards: the number of cores must be 2 to 8, not {value}."
        ),
        4 => format!(
            "Refusal 4 for core {index}: its label must be 0 to 63 and above the label of the core \
             before, not {value}."
        ),
        5 => format!(
            "Refusal 5 for loop {index} onwards: the number of loops must be at least 1, on a wish \
             sheet above the number of cores, and at most 16, not {value}."
        ),
        _ => return None,
    };
    Some(sentence)
}

/// 6 to 10 and 28: the loops, each by itself or all together.
fn of_loops(number: u32, index: u32, value: u64) -> Option<String> {
    let sentence = match number {
        6 => format!(
            "Refusal 6 for loop {index}: its separation must be 1 to 100,000 ticks, not {value}."
        ),
        7 => format!(
            "Refusal 7 for loop {index}: its budget must be at least 1 tick and at most its \
             separation, not {value}."
        ),
        8 => format!(
            "Refusal 8 for loop {index}: its offset must be at most its separation, not {value}."
        ),
        9 => format!(
            "Refusal 9 for loop {index} onwards: the least common multiple of all separations \
             must be 1 to 1,000,000, not {value}."
        ),
        10 => format!(
            "Refusal 10 for loop {index} onwards: the shares must add up to at least 1 and at \
             most the number of cores times the least common multiple of all separations, not \
             {value}."
        ),
        28 => format!(
            "Refusal 28 for loop {index}: its deadline must be 1 to 1,600,000 ticks, not {value}."
        ),
        _ => return None,
    };
    Some(sentence)
}

/// 11 to 13: the slack, and the bounds that it gives.
fn of_slack(number: u32, index: u32, value: u64) -> Option<String> {
    let sentence = match number {
        11 => format!(
            "Refusal 11 for loop {index} onwards: the slack count must be 0 or, where slack \
             may be offered, the number of loops, not {value}."
        ),
        12 => format!(
            "Refusal 12 for loop {index}: its slack must be compliant if it is offered and, if it \
             is found, the smallest that is compliant, or 0 where loops are no more than cores, \
             not {value}."
        ),
        13 => format!(
            "Refusal 13 for loop {index}: its bound must be at most 16 times its separation, not \
             {value}."
        ),
        _ => return None,
    };
    Some(sentence)
}

/// 14 to 17: a log and its entries.
fn of_log(number: u32, index: u32, value: u64) -> Option<String> {
    let sentence = match number {
        14 => format!(
            "Refusal 14 for entry {index} onwards: the log must have 2 bytes and 9 more for each \
             entry that it counts, not {value}."
        ),
        15 => format!(
            "Refusal 15 for entry {index}: its tick must be at most 1,000,000,000, not {value}."
        ),
        16 => format!(
            "Refusal 16 for entry {index} onwards: the lent answer must have at least 8 bytes \
             for each entry, not {value}."
        ),
        17 => format!(
            "Refusal 17 for entry {index}: its tick must be at least the largest tick before it, \
             not {value}."
        ),
        _ => return None,
    };
    Some(sentence)
}

/// 18 to 23: the engine's state, and a release.
fn of_engine(number: u32, index: u32, value: u64) -> Option<String> {
    let sentence = match number {
        18 => format!(
            "Refusal 18 for loop {index} onwards: the engine's state must be sound, which it is \
             not at tick {value}."
        ),
        19 => format!(
            "Refusal 19 for loop {index} onwards: the clock must be below 4,000,000,000 for a \
             release or a step, not {value}."
        ),
        20 => format!(
            "Refusal 20 for release {index}: it must be of a loop in the table, not of loop \
             {value}."
        ),
        21 => format!(
            "Refusal 21 for release {index}: its demand must be at least 1 tick and at most its \
             loop's budget, not {value}."
        ),
        22 => format!(
            "Refusal 22 for release {index}: the ticks since its loop's last taken release must be \
             at least the loop's separation, not {value}."
        ),
        23 => format!(
            "Refusal 23 for release {index}: its loop must hold fewer than 16 unfinished jobs, not \
             {value}."
        ),
        _ => return None,
    };
    Some(sentence)
}

/// 24 and 25: what is lent to be written to.
fn of_buffer(number: u32, index: u32, value: u64) -> Option<String> {
    let sentence = match number {
        24 => format!(
            "Refusal 24 for byte {index} onwards: the lent buffer must be at least as long as \
             what is to be written, not {value}."
        ),
        25 => format!(
            "Refusal 25 for byte {index} onwards: the buffer lent for a sentence must be at \
             least as long as the sentence, for which 256 bytes are always enough, not {value}."
        ),
        _ => return None,
    };
    Some(sentence)
}

/// 26 and 27: a loop's own wish, and all wishes together.
fn of_wish(number: u32, index: u32, value: u64) -> Option<String> {
    let sentence = match number {
        26 => format!(
            "Refusal 26 for loop {index}: its wish must be at least its budget and at most 16 \
             times its separation, not {value}."
        ),
        27 => format!(
            "Refusal 27 for loop {index} onwards: whole offsets and compliant slack must exist \
             with every bound at most its wish, and the number of such solutions is {value}."
        ),
        _ => return None,
    };
    Some(sentence)
}

/// 29 to 31: loops on the way from one edition to the other.
fn of_conversion(number: u32, index: u32, value: u64) -> Option<String> {
    let sentence = match number {
        29 => format!(
            "Refusal 29 for loop {index}: on the way to edition 2, its offset must be at least 1 \
             tick, not {value}."
        ),
        30 => format!(
            "Refusal 30 for loop {index}: on the way to edition 1, its deadline must equal its \
             offset, not {value}."
        ),
        31 => format!(
            "Refusal 31 for loop {index} onwards: for a conversion the number of loops must be \
             above the number of cores, not {value}."
        ),
        _ => return None,
    };
    Some(sentence)
}

/// "A number outside the table, which 25 and each later number joins, gets a sentence with the word
/// `unknown`, and no other has it."
fn of_unknown(number: u32, index: u32, value: u64) -> String {
    format!(
        "Refusal {number} for place {index}: the meaning of this number is unknown here, and the \
         value found is {value}."
    )
}
