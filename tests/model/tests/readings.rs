//! The readings of document 01's open points (docs/DECISIONS.md), numbered as the vectors are.

mod common;

use common::{RECOVERY, check, played};

#[test]
fn reading_1_every_line_has_a_number_and_odd_ones_get_1() {
    let lines: [&[u8]; 8] = [b"", b"\r", b"\t", b"\0", b"OR 0 0\r", b"OR\t0 0", b"OR 0 x", b"OR 0 0\0"];
    let refused: String = (1..=lines.len()).map(|line| format!("{line} N 1\n")).collect();
    assert_eq!(played([lines.join(&b'\n'), b"\n".to_vec()].concat()), format!("{refused}files 0\n"));
}

#[test]
fn reading_2_numbers_end_below_2_to_the_64th() {
    check(
        &[
            ("OR 18446744073709551615 0", "N 2"),
            ("OR 18446744073709551616 0", "N 1"),
            ("OW 0 0", "G 2 1 1"),
            ("WR 0 0 0 18446744073709551615", "K"),
            ("WR 0 0 0 18446744073709551616", "N 1"),
            ("RD 0 0 0", "V 18446744073709551615"),
        ],
        &["files 1", "0 5 2 -"],
    );
}

#[test]
fn reading_3_a_closed_station_in_recovery_gets_5() {
    check(&[("XX", "K"), ("RD 0 0 0", "N 5"), ("WR 0 0 0 1", "N 5")], &["files 0"]);
}

#[test]
fn reading_4_the_summary_is_the_table_as_it_stands() {
    check(&[("OW 0 0", "G 2 1 1"), ("XX", "K")], &["files 1", "0 0 2 -"]);
    check(
        &[("OR 1 0", "G 1 0 1"), ("OR 2 0", "G 1 0 1"), ("OW 3 0", "W 1:2 2:2"), ("AN 1 0", "A 0")],
        &["files 1", "0 6 1 -"],
    );
}

#[test]
fn reading_5_nine_is_for_anyone_and_before_eleven() {
    check(
        &[
            ("OW 0 0", "G 2 1 1"),
            ("OR 1 0", "W 0:3"),
            ("OR 1 0", "N 9"),
            ("OR 0 0", "N 9"),
            ("OW 0 0", "N 9"),
            ("CR 0 0", "N 9"),
            ("CW 5 0", "N 9"),
        ],
        &["files 1", "0 5 2 -"],
    );
}

#[test]
fn reading_6_a_repeated_write_open_raises_the_version() {
    check(&[("OW 0 0", "G 2 1 1"), ("OW 0 0", "G 3 2 1")], &["files 1", "0 5 3 -"]);
}

#[test]
fn reading_7_a_write_open_raises_the_writers_alone() {
    check(&[("OW 0 0", "G 2 1 1"), ("CR 0 0", "N 11"), ("RD 0 0 0", "V 0")], &["files 1", "0 5 2 -"]);
}

#[test]
fn reading_8_the_previous_version_of_1_is_0() {
    check(&[("OR 0 0", "G 1 0 1")], &["files 1", "0 2 1 -"]);
}

#[test]
fn reading_9_a_flush_leaves_the_call_due() {
    let flushed = [("OW 0 0", "G 2 1 1"), ("WR 0 0 0 7", "K"), ("CW 0 0", "K"), ("OR 1 0", "W 0:1"), ("FL 0 0 0", "K")];
    check(&flushed, &["files 1", "0 0 2 -"]);
    check(&[&flushed[..], &[("AN 0 0", "A 0 1 2 1 1"), ("RD 1 0 0", "V 7")]].concat(), &["files 1", "0 2 2 -"]);
}

#[test]
fn reading_10_a_called_station_reads_and_writes_until_it_replies() {
    check(
        &[
            ("OW 0 0", "G 2 1 1"),
            ("OR 1 0", "W 0:3"),
            ("WR 0 0 0 5", "K"),
            ("RD 0 0 0", "V 5"),
            ("AN 0 0", "A 1 1 2 1 0"),
            ("RD 1 0 0", "V 5"),
        ],
        &["files 1", "0 6 2 -"],
    );
}

#[test]
fn reading_11_a_report_without_a_mark_leaves_the_last_writer() {
    check(
        &[("OW 0 0", "G 2 1 1"), ("WR 0 0 0 1", "K"), ("CW 0 0", "K"), ("XX", "K"), ("RP 0", "K"), ("RP 1", "K")],
        &["files 1", "0 1 2 0"],
    );
}

#[test]
fn reading_12_after_a_broken_off_invalidation() {
    let broken_off = [("OR 1 0", "G 1 0 1"), ("OR 2 0", "G 1 0 1"), ("OW 3 0", "W 1:2 2:2"), ("AN 1 0", "A 0")];
    let then = |next, summary| check(&[&broken_off[..], &RECOVERY, &[next]].concat(), &["files 1", summary]);
    then(("OW 2 0", "G 2 1 0"), "0 6 2 -");
    then(("OR 2 0", "G 1 0 1"), "0 6 1 -");
    then(("OR 1 0", "G 1 0 0"), "0 6 1 -");
    then(("CR 1 0", "K"), "0 2 1 -");
}

#[test]
fn reading_13_the_last_line_ends_with_lf_and_calls_go_in_station_order() {
    check(
        &[("OR 5 0", "G 1 0 1"), ("OR 2 0", "G 1 0 1"), ("OR 7 0", "G 1 0 1"), ("OW 0 0", "W 2:2 5:2 7:2")],
        &["files 1", "0 4 1 -"],
    );
}

#[test]
fn reading_14_a_second_crash_takes_the_reports_back() {
    check(
        &[
            ("OR 0 0", "G 1 0 1"),
            ("RD 0 0 0", "V 0"),
            ("XX", "K"),
            ("RP 0", "K"),
            ("RD 0 0 0", "N 5"),
            ("XX", "K"),
            ("RD 0 0 0", "V 0"),
        ],
        &["files 0"],
    );
}
