//! The data clocks, held to what a program wrote: behind each pair that is read, and in each tally. They
//! stand in a table here; nothing of the reference's own figures is used.

use super::answered::answered;
use super::by_wiring;
use crate::script::Call;
use crate::sheet::Sheet;
use crate::wiring;

/// The clocks from LAL to the first data, and the data length.
type Data = [u64; 2];

/// CL and BL, and the data of a read and of a write there.
const PARTS: [(u32, u32, Data, Data); 6] = [
    (3, 2, [3, 1], [2, 1]),
    (3, 4, [3, 2], [2, 2]),
    (4, 2, [4, 1], [3, 1]),
    (4, 4, [4, 2], [3, 2]),
    (5, 2, [5, 1], [4, 1]),
    (5, 4, [5, 2], [4, 2]),
];

/// The data of every other pair.
const NO_DATA: Data = [0, 0];

/// Pairs by what they are read to; a write of fewer words has a lane that writes less than BL.
const READ: &str = "read";
const WRITE: &str = "write";
const FEWER: &str = "write of fewer words";
const OTHERS: [&str; 3] = ["regular", "extended", "refresh"];

/// What the lines of pairs that are read must show.
pub fn promised_of_pairs() -> Vec<String> {
    let mut promised = Vec::new();
    for (cl, bl, read, write) in PARTS {
        let with_data = [(READ, read), (WRITE, write), (FEWER, write)];
        let without = OTHERS.map(|pair| (pair, NO_DATA));
        for (pair, data) in with_data.into_iter().chain(without) {
            promised.extend(by_wiring(&of_part(pair, cl, bl, data)));
        }
    }
    promised
}

/// What the lines of tallies must show.
pub fn promised_of_tallies() -> Vec<String> {
    let names = [2, 4].map(|bl| [0, 1].map(|data| counted(bl, data)));
    names.concat().iter().flat_map(|n| by_wiring(n)).collect()
}

/// The name of a pair and its data at a CL and BL.
fn of_part(pair: &str, cl: u32, bl: u32, data: Data) -> String {
    let data = match data {
        NO_DATA => "no data".to_string(),
        [latency, length] => format!("data after {latency} for {length}"),
    };
    format!("{pair} at CL {cl} and BL {bl}: {data}")
}

/// The name of a tally at a BL, by whether it has data.
fn counted(bl: u32, data: u64) -> String {
    let data = if data == 0 { "no data" } else { "data" };
    format!("tally at BL {bl}: {data}")
}

/// The name of a tally on a sheet that has so many clocks of data.
pub fn counted_on(sheet: &Sheet, data: u64) -> String {
    format!(
        "{}, {}",
        counted(sheet.bl, data),
        wiring::name(sheet.wiring)
    )
}

/// Checks each line that answers for a pair that is read, or for a tally. Gives names for the coverage, or
/// the call at fault and what is wrong with its line.
pub fn check(calls: &[Call], text: &str) -> Result<Vec<String>, (usize, String)> {
    let mut seen = Vec::new();
    for (place, (sheet, call, line)) in answered(calls, text).enumerate() {
        let name = match call {
            Call::ReadPair(..) => read(&sheet, line),
            Call::Count(_) | Call::CountAnyway(_) => tallied(&sheet, call, line),
            _ => continue,
        };
        seen.extend(name.map_err(|due| (place, format!("{line}: {due} due")))?);
    }
    Ok(seen)
}

/// The word and the numbers that a line tells; none if a number has a sign or a 0 before it.
fn told(line: &str) -> Option<(&str, Vec<u64>)> {
    let mut parts = line.split(' ');
    let word = parts.next()?;
    let plain = |part: &&str| *part == "0" || !part.starts_with(['0', '+']);
    let number = |part: &str| Some(part).filter(plain)?.parse().ok();
    Some((word, parts.map(number).collect::<Option<_>>()?))
}

/// The data of a read and of a write on an accepted sheet.
fn data_on(sheet: &Sheet) -> (Data, Data) {
    let mut parts = PARTS.into_iter();
    let part = parts.find(|part| (part.0, part.1) == (sheet.cl, sheet.bl));
    part.map(|part| (part.2, part.3)).expect("a part")
}

/// The name of a pair that was read, none of a refused one, or what is due in place of the line.
fn read(sheet: &Sheet, line: &str) -> Result<Option<String>, String> {
    let refusal = sheet.refusal().unwrap_or(28);
    let (word, numbers) = told(line).ok_or("a pair is")?;
    if word == "refused" && numbers == [u64::from(refusal)] {
        return Ok(None);
    }
    if refusal != 28 {
        return Err(format!("refused {refusal} is"));
    }
    let (of_read, of_write) = data_on(sheet);
    let bl = u64::from(sheet.bl);
    let (pair, due, data) = match (word, &numbers[..]) {
        ("access", [0, _, _, _, _, _, data @ ..]) => (READ, of_read, data),
        ("access", [1, _, _, _, lower, upper, data @ ..]) => {
            let all = *lower == bl && (sheet.org == 8 || *upper == bl);
            (if all { WRITE } else { FEWER }, of_write, data)
        }
        ("regular" | "extended", [_, data @ ..]) => (word, NO_DATA, data),
        ("refresh", data) => (word, NO_DATA, data),
        _ => return Err("a pair is".to_string()),
    };
    if data != due {
        return Err(format!("{} {} behind it are", due[0], due[1]));
    }
    let name = of_part(pair, sheet.cl, sheet.bl, due);
    Ok(Some(format!("{name}, {}", wiring::name(sheet.wiring))))
}

/// The name of a tally, none of a refused one, or what is due in place of the line: the sheet's refusal with
/// all counts 0, or else as many clocks of data as the reads and writes counted have.
fn tallied(sheet: &Sheet, call: &Call, line: &str) -> Result<Option<String>, String> {
    let (word, numbers) = told(line).ok_or("a tally is")?;
    let numbers = match (call, word) {
        (Call::Count(_), "counts") => [&[0], &numbers[..]].concat(),
        (Call::Count(_), "refused") => [&numbers[..], &[0; 6]].concat(),
        (_, "counts") => numbers,
        _ => return Err("a tally is".to_string()),
    };
    if let Some(number) = sheet.refusal() {
        let refused = numbers == [u64::from(number), 0, 0, 0, 0, 0, 0];
        return match refused {
            true => Ok(None),
            false => Err(format!("{number} without counts is")),
        };
    }
    let ([_, of_read], [_, of_write]) = data_on(sheet);
    match numbers[..] {
        [0, reads, writes, _, _, _, data] if data == reads * of_read + writes * of_write => {
            Ok(Some(counted_on(sheet, data)))
        }
        _ => Err("the data of its reads and writes are".to_string()),
    }
}
