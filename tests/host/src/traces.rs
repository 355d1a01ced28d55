//! A round's events once more, as a trace: whole, cut, with an unknown kind, and with too little room. A hold refused 10 ends it.

use crate::pair::{same, Difference, Pair};
use host::random::Random;
use reference::ANSWER_LENGTH;

/// What stands in a log before it is written.
const UNWRITTEN: u8 = 0xA5;

/// Both play a trace into so much room, alike in state, counts, stop and every byte of the room. Gives the stop and what they are then.
fn play(start: &Pair, trace: &[u8], room: usize) -> Result<(u8, Pair), Difference> {
    let mut logs = [vec![UNWRITTEN; room], vec![UNWRITTEN; room]];
    let mut after = start.clone();
    let library = start.library.play(trace, &mut logs[0]);
    let reference = reference::play(&mut after.reference, trace, &mut logs[1]);
    after.library = library.state;
    let what = || format!("a trace of {} bytes in {room}", trace.len());
    same(
        || what() + ": bytes read, bytes written, stop",
        (library.read, library.written, library.stop),
        (reference.read, reference.written, reference.stop),
    )?;
    let first = (0..room).find(|&i| logs[0][i] != logs[1][i]);
    if let Some(at) = first.map(|i| i / ANSWER_LENGTH) {
        let answer = |log: &[u8]| log[at * ANSWER_LENGTH..].iter().copied().take(ANSWER_LENGTH).collect();
        let [a, b]: [Vec<u8>; 2] = [answer(&logs[0]), answer(&logs[1])];
        same(|| what() + &format!(": answer {at}"), a, b)?;
    }
    after.readable()?;
    Ok((library.stop, after))
}

/// Plays a round's records from where it started to where it ended. `stopped` counts the stops by their numbers.
pub fn check(
    random: &mut Random,
    start: &Pair,
    end: &Pair,
    records: &[Vec<u8>],
    stopped: &mut [u64; 11],
) -> Result<(), Difference> {
    let trace = records.concat();
    let room = records.len() * ANSWER_LENGTH;
    let mut count = |stop: u8| stopped[usize::from(stop)] += 1;

    let spare = ANSWER_LENGTH as u32;
    let (stop, after) = play(start, &trace, room + random.below(spare) as usize)?;
    count(stop);
    if stop == 0 {
        same(
            || "the module played and the one called".into(),
            after.library,
            end.library,
        )?;
    }

    // A record that is cut, or unknown, or finds no room, or two of these at once.
    let number = random.below(records.len() as u32) as usize;
    let before = records[..number].concat().len();
    let tight = number * ANSWER_LENGTH + random.below(spare) as usize;

    let cut = before + random.below(records[number].len() as u32) as usize;
    count(play(start, &trace[..cut], random.pick(&[room, tight]))?.0);

    count(play(start, &trace, tight)?.0);

    let mut damaged = trace.clone();
    damaged[before] = random.pick(&[0x00, 0x06, 0x10, 0x81, 0xFF]);
    count(play(start, &damaged, random.pick(&[room, tight]))?.0);
    Ok(())
}
