//! The published rows: the reference gives the line of each, and the suite's check lets no other pass.

use reference::expected::{answers, Answers};
use reference::script::{bytes, script, Call};
use reference::sheet::SHEET_E;
use reference::suites::rows::{check, named, parts, time::PAST_32_BITS, Row};
use reference::time::length;

/// What the reference gives for a row.
fn played(row: &Row) -> Answers {
    answers(&bytes(&script(&row.calls())))
}

#[test]
fn the_reference_gives_each_line() {
    for (name, row) in named() {
        assert_eq!(played(&row).text.lines().last(), Some(row.line), "{name}");
    }
    let (count, number) = PAST_32_BITS;
    assert_eq!(length(&SHEET_E, count), Err(number));
}

#[test]
fn no_row_is_lost() {
    let counts = parts().map(|(_, rows)| rows.len());
    assert_eq!(counts, [6, 21, 35, 24, 18, 14, 68]);
}

/// Each call writes one line, and the one that the row is about is held to it.
#[test]
fn other_lines_do_not_pass() {
    for (name, row) in named() {
        let (calls, text) = (row.calls(), played(&row).text);
        assert!(check(&calls, &text).unwrap().contains(&name));
        let other = text.replace(&format!("{}\n", row.line), "refused 24\n");
        assert_eq!(check(&calls, &other).unwrap_err().0, calls.len() - 1);
        assert_eq!(check(&calls, "").unwrap_err().0, calls.len() - 1);
    }
}

/// Rows behind each other in one script are told apart by their configurations.
#[test]
fn rows_behind_each_other() {
    let rows: Vec<Row> = named().into_iter().map(|(_, row)| row).take(30).collect();
    let calls: Vec<Call> = rows.iter().flat_map(Row::calls).collect();
    let text: String = rows.iter().map(|row| played(row).text).collect();
    assert!(check(&calls, &text).unwrap().len() >= rows.len());
}
