//! Pairs as text against the words that the reference implementation writes for them.

mod common;

use common::{bytes, formats, good_as, last_line, listing, listing_data};
use reference::data::DataClocks;
use reference::pair::{read, write, Operation, Reading, Request};
use reference::random::Random;
use reference::sheet::{Sheet, SHEET_E};
use trace::Format;

const SEED: u64 = 0x7ACE_0002;

/// An accepted sheet of the format.
fn sheet(random: &Random, format: Format) -> Sheet {
    Sheet {
        cl: random.between(3, 5),
        bl: format.bl,
        org: format.organisation,
        wiring: format.wiring,
        period: 6000,
        ..SHEET_E
    }
}

/// An operation whose fields are in their ranges.
fn operation(random: &Random, format: Format) -> Operation {
    let (banks, rows) = if format.wiring == 4 {
        (4, 32_768)
    } else {
        (8, 16_384)
    };
    let lane = || random.pick(if format.bl == 4 { &[1, 2, 4] } else { &[1, 2] });
    let columns = if format.organisation == 16 { 256 } else { 512 };
    match random.below(8) {
        0 => Operation::Regular(random.once_in(2)),
        1 => Operation::Extended(random.below(64)),
        2 => Operation::Refresh,
        choice => {
            let write = choice > 4;
            let upper = write && format.organisation == 16;
            Operation::Access(Request {
                write,
                bank: random.below(banks),
                row: random.below(rows),
                column: random.below(columns),
                lower: if write { lane() } else { 0 },
                upper: if upper { lane() } else { 0 },
            })
        }
    }
}

/// The two lines of an operation.
fn lines(sheet: &Sheet, operation: Operation) -> (String, String) {
    match operation {
        Operation::Regular(a3) => (
            "RDA bank 0 row 0".to_string(),
            format!(
                "MRS regular cl {} bl {} a3 {}",
                sheet.cl,
                sheet.bl,
                u32::from(a3)
            ),
        ),
        Operation::Extended(value) => (
            "RDA bank 0 row 0".to_string(),
            format!("MRS extended {value}"),
        ),
        Operation::Refresh => ("WRA bank 0 row 0".to_string(), "REF".to_string()),
        Operation::Access(request) => access(sheet, request),
    }
}

fn access(sheet: &Sheet, request: Request) -> (String, String) {
    let name = if request.write { "WRA" } else { "RDA" };
    let first = format!("{name} bank {} row {}", request.bank, request.row);
    let mut second = format!("LAL column {}", request.column);
    if request.write {
        second += &format!(" lower {}", request.lower);
    }
    if request.write && sheet.org == 16 {
        second += &format!(" upper {}", request.upper);
    }
    (first, second)
}

/// Each operation's lines give the reference's words, and the words give the lines.
#[test]
fn operations() {
    let random = Random::new(SEED);
    for format in formats() {
        for _ in 0..20_000 {
            let sheet = sheet(&random, format);
            let operation = operation(&random, format);
            let (first, second) = write(&sheet, &operation).expect("the fields are in range");
            let (line, next) = lines(&sheet, operation);
            let words = bytes(&[first, second]);
            let text = format!(
                "bl {}\norganisation {}\n{line}\n{next}",
                format.bl, format.organisation
            );
            assert_eq!(good_as(&text, Some(format.wiring)).trace.bytes(), words);

            let text = listing(&words, format);
            let tail = format!("{line:<40}# 0\n{next:<40}# 1\n{}", last_line(2));
            assert!(text.ends_with(&tail), "{text}\n{tail}");
        }
    }
}

/// What is said of data behind the LAL at clock 1.
fn shown(data: DataClocks) -> String {
    let first = 1 + data.latency;
    match data.length {
        0 => String::new(),
        1 => format!(", data {first}"),
        length => format!(", data {first} to {}", first + length - 1),
    }
}

/// Any pair that is listed without a bare word stands for what the reference reads it to; with one too it has the same data.
#[test]
fn pairs() {
    let random = Random::new(SEED + 1);
    let mut named = 0;
    for format in formats() {
        for _ in 0..100_000 {
            let sheet = sheet(&random, format);
            let first = 0x80000 | random.pick(&[0, 0, 0x20000]) | random.below(1 << 17);
            let second = 0x80000 | random.bits() & random.bits() & 0x7FFFF;
            let words = bytes(&[first, second]);
            let text = listing(&words, format);
            let Ok(Reading { operation, data }) = read(&sheet, first, second) else {
                continue;
            };
            let with_data = listing_data(&words, format, sheet.cl);
            let [plain, with_data] = [&text, &with_data].map(|text| text.lines().nth_back(1));
            let wanted = plain.map(|line| line.to_string() + &shown(data));
            assert_eq!(with_data, wanted.as_deref());
            if text.contains("WORD") || matches!(operation, Operation::Refresh) {
                continue;
            }
            named += 1;
            let (line, next) = lines(&sheet, operation);
            let mode = !matches!(operation, Operation::Access(_));
            assert!(mode || text.contains(&format!("{line:<40}#")), "{text}");
            assert!(text.contains(&format!("{next:<40}#")), "{text}{next}");
        }
    }
    assert!(named > 5_000, "{named} pairs were named");
}
