//! Recorded cases of the journal's calls: `journal_put SEQUENCE KIND INPUT SLOT`, `journal_write KIND
//! INPUT JOURNAL` and `journal_replay MORE OUT REPORT JOURNAL`, each followed by `= REFUSAL COUNT
//! BYTES` with the slot or report that is then there, `=` for no change. Before a replay stand `fresh N
//! D OWN`, `tick COUNT`, `step HEX` and `offer HEX`, which make the station that it is for, and a line
//! `then tick|step|offer REFUSAL HEX` for each input that it must come to.

use programs::{Answer, Journals};
use second::journal::SLOT;
use second::replay::bytes;
use station::Size;

/// What a buffer holds before a call.
const FILL: u8 = 0xc3;

/// An input, and the refusal that it gets.
type Then<'a> = (&'a str, u32, Vec<u8>);

/// Runs the cases of a text: how many there were, or the first that differs. Stores of another length
/// are left out: not every program has one.
pub fn run<P: Journals + Clone>(text: &str) -> Result<usize, String> {
    let (mut cases, mut station, mut thens) = (0, None, Vec::new());
    for (number, line) in (1..).zip(text.lines()) {
        let bad = || format!("line {number} is none of a recorded case");
        let words: Vec<&str> = line.split_whitespace().collect();
        if words.first().is_some_and(|word| word.starts_with("journal_")) {
            case::<P>(&words, station.as_ref(), &thens)
                .ok_or_else(bad)?
                .map_err(|how| format!("line {number}: {how}"))?;
            cases += 1;
            thens.clear();
        } else {
            script(&words, &mut station, &mut thens).ok_or_else(bad)?;
        }
    }
    Ok(cases)
}

/// A line that makes a station, or says what a replay must come to.
fn script<'a, P: Journals>(
    words: &[&'a str],
    station: &mut Option<P>,
    thens: &mut Vec<Then<'a>>,
) -> Option<()> {
    match *words {
        ["fresh", n, d, own] => {
            let number = |word: &str| word.parse().ok();
            *station = Some(P::fresh(Size::Small, number(n)?, number(d)?, number(own)?).ok()?);
        }
        ["tick", count] => {
            for _ in 0..count.parse::<u64>().ok()? {
                give(station.as_mut()?, "tick", &[]);
            }
        }
        [what @ ("step" | "offer"), hex] => {
            give(station.as_mut()?, what, &bytes(hex)?);
        }
        ["then", what, number, ref hex @ ..] => {
            let input = hex.first().map_or(Some(Vec::new()), |hex| bytes(hex))?;
            thens.push((what, number.parse().ok()?, input));
        }
        _ => return None,
    }
    Some(())
}

fn give<'a, P: Journals>(station: &'a mut P, what: &str, input: &[u8]) -> Answer<'a> {
    match what {
        "tick" => station.tick(),
        "step" => station.step(input),
        _ => station.offer(input),
    }
}

/// One case; none if the words are none of one.
fn case<P: Journals + Clone>(
    words: &[&str],
    station: Option<&P>,
    thens: &[Then],
) -> Option<Result<(), String>> {
    let number = |word: &str| word.parse::<u64>().ok();
    let wanted = |refusal, count| Some(number(refusal)? << 32 | number(count)?);
    Some(match *words {
        ["journal_put", sequence, kind, input, slot, "=", refusal, count, left] => {
            let mut slot = bytes(slot)?;
            let left = if left == "=" { slot.clone() } else { bytes(left)? };
            let answer = P::put(&mut slot, number(sequence)?, number(kind)?, &bytes(input)?);
            alike(answer, wanted(refusal, count)?, &[(&slot, &left, "slot")])
        }
        ["journal_write", kind, input, journal, "=", refusal, count, left] => {
            let mut journal = bytes(journal)?;
            let mut after = journal.clone();
            if left != "=" {
                let at = number(count)? as usize * SLOT;
                after[at..at + SLOT].copy_from_slice(&bytes(left)?);
            }
            let answer = P::write(&mut journal, number(kind)?, &bytes(input)?);
            alike(answer, wanted(refusal, count)?, &[(&journal, &after, "journal")])
        }
        ["journal_replay", "0", out, report, journal, "=", refusal, count, left] => {
            let mut out = vec![FILL; number(out)? as usize];
            let mut report = vec![FILL; number(report)? as usize];
            let (mut out_after, mut report_after) = (out.clone(), report.clone());
            if left != "=" {
                let left = bytes(left)?;
                report_after[..left.len()].copy_from_slice(&left);
            }
            let mut after = station?.clone();
            for (what, refusal, input) in thens {
                let answer = give(&mut after, what, input);
                if answer.number != *refusal {
                    return Some(Err(format!("{what} answers {}", answer.number)));
                }
                out_after[..answer.out.len()].copy_from_slice(answer.out);
            }
            let mut station = station?.clone();
            let answer = station.replay(&bytes(journal)?, &mut out, &mut report);
            let buffers = [
                (&out, &out_after, "out buffer"),
                (&report, &report_after, "report"),
                (&station.shown(), &after.shown(), "store"),
            ];
            alike(answer, wanted(refusal, count)?, &buffers)
        }
        ["journal_replay", _, _, _, _, "=", "1", "0", _] => Ok(()),
        _ => return None,
    })
}

/// Whether the answer and each buffer are as wanted.
fn alike(answer: u64, wanted: u64, buffers: &[(&Vec<u8>, &Vec<u8>, &str)]) -> Result<(), String> {
    let parts = |answer: u64| (answer >> 32, answer as u32);
    if answer != wanted {
        return Err(format!("answers {:?}, recorded {:?}", parts(answer), parts(wanted)));
    }
    match buffers.iter().find(|(left, wanted, _)| left != wanted) {
        Some((.., what)) => Err(format!("the {what} differs")),
        None => Ok(()),
    }
}
