//! One comparison under way: calls the archive's checks, compares, counts.

use crate::call::Form;
use crate::memory::Edge;
use reference::both::Both;
use reference::command_line::keep;
use reference::coverage::Coverage;
use reference::hand_in::{site_number, site_refusal};
use reference::judge::LONGEST;
use reference::random::Random;
use reference::sheet::Sheet;
use reference::suites::sheets;
use reference::wiring;
use std::process::exit;

/// The longest trace that `short` takes, in bytes.
pub const SHORT: usize = 100_000;

/// What was called and met so far.
pub struct Run {
    pub random: Random,
    pub coverage: Coverage,
    pub calls: u64,
    turn: usize,
    edge: Edge,
    /// Where short traces lie that do not end at the edge.
    place: Vec<u8>,
}

impl Run {
    pub fn new(seed: u64) -> Run {
        Run {
            random: Random::new(seed),
            coverage: Coverage::default(),
            calls: 0,
            turn: 0,
            edge: Edge::new(SHORT + 4),
            place: Vec::new(),
        }
    }

    /// Compares on a short trace, at all addresses modulo 4 in turn, each among other bytes and at
    /// the edge of readable memory.
    pub fn short(&mut self, sheet: &Sheet, bytes: &[u8]) {
        self.turn += 1;
        self.short_at(sheet, bytes, self.turn / 2 % 4, self.turn.is_multiple_of(2));
    }

    /// Compares on a short trace that begins at an address modulo 4, maybe up to the edge of memory.
    pub fn short_at(&mut self, sheet: &Sheet, bytes: &[u8], address: usize, at_edge: bool) {
        assert!(bytes.len() <= SHORT, "no short trace");
        let wanted = site_number::<Both>(sheet, bytes);
        let placed = if at_edge {
            self.edge.place(bytes, address)
        } else {
            place(&mut self.place, bytes, address)
        };
        let answers = answers(sheet, |form| form.check(sheet, placed));
        if placed != bytes {
            fail(sheet, bytes, "the same bytes after the call", "other bytes");
        }
        if at_edge {
            self.coverage.meet("trace up to the edge of memory");
        }
        if site_refusal(sheet, bytes.len()).is_none() && !bytes.is_empty() {
            let address = placed.as_ptr() as usize % 4;
            self.coverage
                .meet(&format!("judged at address {address} modulo 4"));
        }
        self.settle(sheet, bytes, wanted, &answers);
    }

    /// Compares on a trace of any length where it lies; the answer was found otherwise.
    pub fn lent(&mut self, sheet: &Sheet, bytes: &[u8], wanted: u32) {
        let before = bytes.to_vec();
        let answers = answers(sheet, |form| form.check(sheet, bytes));
        if before != bytes {
            fail(
                sheet,
                &before,
                "the same bytes after the call",
                "other bytes",
            );
        }
        self.settle(sheet, bytes, wanted, &answers);
    }

    /// Compares on bytes that are refused by the sheet or their number alone.
    pub fn refused(&mut self, sheet: &Sheet, bytes: &[u8]) {
        let wanted = site_refusal(sheet, bytes.len()).expect("a refusal");
        let answers = answers(sheet, |form| form.check(sheet, bytes));
        self.settle(sheet, bytes, wanted, &answers);
    }

    /// Compares on numbers with the given bits in the upper halves of their places.
    pub fn dirty(&mut self, sheet: &Sheet, bytes: &[u8], dirt: u32) {
        let wanted = site_number::<Both>(sheet, bytes);
        let answers = answers(sheet, |form| form.check_dirty(sheet, bytes, dirt));
        self.settle(sheet, bytes, wanted, &answers);
        self.coverage.meet("numbers with other upper halves");
    }

    /// Compares on no bytes at the null pointer.
    pub fn null(&mut self, sheet: &Sheet) {
        let wanted = site_refusal(sheet, 0).unwrap_or(0);
        let answers = answers(sheet, |form| form.check_null(sheet));
        self.settle(sheet, &[], wanted, &answers);
        self.coverage.meet("no bytes at the null pointer");
    }

    /// Compares the answers of the calls with the one wanted and counts them. A difference ends the
    /// program.
    fn settle(&mut self, sheet: &Sheet, bytes: &[u8], wanted: u32, answers: &[(Form, u32)]) {
        let name = match wanted {
            0 => "accepted".to_string(),
            20..=29 | 33 | 34 => format!("refused {wanted}"),
            _ => format!("breach {}", wanted % 64),
        };
        for (form, got) in answers {
            let call = form.name();
            if wanted != *got {
                let got = format!("{} by {call}", meaning(*got));
                fail(sheet, bytes, &meaning(wanted), &got);
            }
            self.calls += 1;
            let banks = wiring::name(sheet.wiring);
            self.coverage.meet(&format!("{call}: {name}, {banks}"));
        }
        // The numbers that stand too, and are answered later in the order.
        sheets::count_order(&mut self.coverage, sheet);
        let odd = !bytes.len().is_multiple_of(4);
        let long = bytes.len() / 4 > LONGEST as usize;
        if odd && sheets::REFUSALS.contains(&wanted) {
            self.coverage.meet(&format!("{wanted} ahead of 29"));
        }
        if long && (wanted == 29 || sheets::REFUSALS.contains(&wanted)) {
            self.coverage.meet(&format!("{wanted} ahead of 24"));
        }
    }
}

/// The answers of all calls that can be made with a sheet.
fn answers(sheet: &Sheet, call: impl Fn(Form) -> u32) -> Vec<(Form, u32)> {
    let forms = Form::of(sheet).iter();
    forms.map(|&form| (form, call(form))).collect()
}

/// A copy of the bytes at an address modulo 4, all ones before and behind.
fn place<'a>(memory: &'a mut Vec<u8>, bytes: &[u8], address: usize) -> &'a [u8] {
    memory.clear();
    memory.resize(bytes.len() + 16, 0xFF);
    let start = 4 + (address + 4 - memory.as_ptr() as usize % 4) % 4;
    memory[start..start + bytes.len()].copy_from_slice(bytes);
    &memory[start..start + bytes.len()]
}

/// A number in the paper's words.
fn meaning(number: u32) -> String {
    match number {
        0 => "0, accepted".to_string(),
        20..=29 | 33 | 34 => format!("{number}, refused"),
        _ => format!("{number}, breach {} {}", number / 64, number % 64),
    }
}

/// Reports a difference, keeps the trace and ends the program.
pub fn fail(sheet: &Sheet, bytes: &[u8], wanted: &str, got: &str) -> ! {
    println!(
        "FAILED on sheet {:?} and {} bytes",
        sheet.numbers(),
        bytes.len()
    );
    println!("  reference: {wanted}");
    println!("  archive:   {got}");
    let most = bytes.len().min(1 << 27);
    keep("trace", "site-difference.bin", &bytes[..most]);
    exit(1)
}
