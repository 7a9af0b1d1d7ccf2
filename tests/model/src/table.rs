//! The table: a row of claimant records, record 1 first; calls on it,
//! schedules, and the standing of two claimants.

use crate::claimant::{check_setting, conflict, Answer, Claimant, Refusal};

/// What may be asked of one claimant.
#[derive(Clone, Copy, Debug, PartialEq, Eq, Hash)]
pub enum Call {
    Step,
    Ask(u16),
    Leave,
}

/// Sets all fields of all records to 0.
pub fn open(rows: &mut [Claimant], ceiling: u32) -> Result<(), Refusal> {
    check_setting(rows.len(), ceiling)?;
    rows.fill(Claimant::default());
    Ok(())
}

/// Refusals 1, 2 and 3: is this a table at all?
pub fn judge(rows: &[Claimant], ceiling: u32) -> Result<(), Refusal> {
    check_setting(rows.len(), ceiling)?;
    if rows.iter().all(|record| record.sound(rows.len(), ceiling)) {
        Ok(())
    } else {
        Err(Refusal::BrokenTable)
    }
}

/// One call of claimant `number`, the table judged first.
pub fn call(rows: &mut [Claimant], ceiling: u32, number: u32, call: Call) -> Answer {
    match judge(rows, ceiling) {
        Ok(()) => perform(rows, ceiling, number, call),
        Err(refusal) => Answer::Refused(refusal),
    }
}

/// One call of claimant `number` on a table that has been judged.
pub fn perform(rows: &mut [Claimant], ceiling: u32, number: u32, call: Call) -> Answer {
    let n = rows.len();
    let Some(at) = index(rows, number) else {
        return Answer::Refused(Refusal::NoSuchClaimant);
    };
    match call {
        Call::Ask(session) => rows[at].asked(session),
        Call::Leave => rows[at].left(),
        Call::Step => {
            let value = match rows[at].reads() {
                Some((register, row)) => rows[row as usize - 1].register(register),
                None => 0,
            };
            rows[at].stepped(n, ceiling, number, value)
        }
    }
}

/// Where the record of claimant `number` stands, if there is such a claimant.
pub fn index(rows: &[Claimant], number: u32) -> Option<usize> {
    let at = (number as usize).checked_sub(1)?;
    (at < rows.len()).then_some(at)
}

/// A call of a claimant as the 32-bit number of a schedule.
pub fn encode(number: u8, call: Call) -> u32 {
    let (kind, session) = match call {
        Call::Step => (0, 0),
        Call::Ask(session) => (1, session),
        Call::Leave => (2, 0),
    };
    kind * 16_777_216 + u32::from(number) * 65_536 + u32::from(session)
}

/// The claimant number and the call that an entry of a schedule says.
pub fn decode(entry: u32) -> Result<(u32, Call), Refusal> {
    let number = entry / 65_536 % 256;
    let session = (entry % 65_536) as u16;
    match (entry / 16_777_216, session) {
        (0, 0) => Ok((number, Call::Step)),
        (1, _) => Ok((number, Call::Ask(session))),
        (2, 0) => Ok((number, Call::Leave)),
        _ => Err(Refusal::BadEntry),
    }
}

/// One entry of a schedule on a table that has been judged.
pub fn apply(rows: &mut [Claimant], ceiling: u32, entry: u32) -> Answer {
    match decode(entry) {
        Ok((number, call)) => perform(rows, ceiling, number, call),
        Err(refusal) => Answer::Refused(refusal),
    }
}

/// Applies a schedule's entries in order; the answers go into the first bytes
/// of `answers`.
pub fn run(
    rows: &mut [Claimant],
    ceiling: u32,
    schedule: &[u32],
    answers: &mut [u8],
) -> Result<(), Refusal> {
    judge(rows, ceiling)?;
    if answers.len() < schedule.len() {
        return Err(Refusal::ShortRow);
    }
    for (answer, &entry) in answers.iter_mut().zip(schedule) {
        *answer = apply(rows, ceiling, entry).byte();
    }
    Ok(())
}

/// Who of `a` and `b` goes first: negative for a, 0 where neither waits for
/// the other.
pub fn standing(rows: &[Claimant], ceiling: u32, a: u32, b: u32) -> Result<i64, Refusal> {
    judge(rows, ceiling)?;
    let record = |number| index(rows, number).ok_or(Refusal::NoSuchClaimant);
    let (x, y) = (&rows[record(a)?], &rows[record(b)?]);
    if x.token == 0 || y.token == 0 || !conflict(x.session, y.session) {
        Ok(0)
    } else if x.token == y.token {
        Ok(i64::from(a) - i64::from(b))
    } else {
        Ok(i64::from(x.token) - i64::from(y.token))
    }
}
