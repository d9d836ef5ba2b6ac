//! House sizes as settings: every sentence of document 02, Wish 7, as far as a step file shows it.

mod common;

use common::{RECOVERY, check, played};
use model::{BLOCKS, CLIENTS, FILES};

/// "The branch office has three desks."
#[test]
fn refusals_2_3_and_4_and_the_reports_follow_the_settings() {
    check(
        &[
            ("SET 3 3 3", "K"),
            ("OR 2 2", "G 1 0 1"),
            ("OR 3 0", "N 2"),
            ("OR 2 3", "N 3"),
            ("RD 2 2 2", "V 0"),
            ("RD 2 2 3", "N 4"),
            ("XX", "K"),
            ("RP 0", "K"),
            ("RP 1", "K"),
            ("EN", "N 8"),
            ("RP 2", "K"),
            ("RP 3", "N 2"),
            ("EN", "K"),
        ],
        &["files 1", "2 2 1 -"],
    );
}

/// "Stations 1 to 8, files 1 to 64 and blocks 1 to 8": the last of each is there, the next is not.
#[test]
fn every_choice_of_sizes_is_in_force() {
    for clients in 1..=CLIENTS {
        for files in 1..=FILES {
            for blocks in 1..=BLOCKS {
                let (client, file, block) = (clients - 1, files - 1, blocks - 1);
                let input = format!(
                    "SET {clients} {files} {blocks}\nOR {client} {file}\nRD {client} {file} {block}\nOR {clients} \
                     {file}\nOR {client} {files}\nRD {client} {file} {blocks}\n"
                );
                let expected = format!("1 K\n2 G 1 0 1\n3 V 0\n4 N 2\n5 N 3\n6 N 4\nfiles 1\n{file} 2 1 -\n");
                assert_eq!(played(&input), expected, "{input}");
            }
        }
    }
}

/// "19 when a setting lies outside its range"; "refused, it leaves 8, 32 and 4".
#[test]
fn a_setting_out_of_range_gets_19() {
    let out =
        ["SET 0 1 1", "SET 9 1 1", "SET 1 0 1", "SET 1 65 1", "SET 1 1 0", "SET 1 1 9", "SET 0 0 0", "SET 9 65 9"];
    let places = ["SET 1 1 1 513", "SET 1 1 1 65537", "SET 1 1 1 18446744073709551615", "SET 0 1 1 0"];
    let huge = ["SET 18446744073709551615 1 1", "SET 1 18446744073709551615 1", "SET 1 1 18446744073709551615"];
    let wrapping = ["SET 257 1 1", "SET 1 257 1", "SET 1 1 257", "SET 4294967297 1 1"];
    for line in out.into_iter().chain(places).chain(huge).chain(wrapping) {
        check(
            &[
                (line, "N 19"),
                ("OR 7 31", "G 1 0 1"),
                ("RD 7 31 3", "V 0"),
                ("OR 8 31", "N 2"),
                ("OR 7 32", "N 3"),
                ("RD 7 31 4", "N 4"),
            ],
            &["files 1", "31 2 1 -"],
        );
    }
}

/// "On a later line it is no step", whatever the first line was.
#[test]
fn a_set_line_that_is_not_the_first_is_no_step() {
    let then = [("SET 1 1 1", "N 1"), ("SET 0 0 0", "N 1"), ("OR 1 1", "G 1 0 1")];
    let firsts =
        [("SET 2 2 2", "K"), ("SET 0 2 2", "N 19"), ("", "N 1"), ("set 2 2 2", "N 1"), ("XX ", "N 1"), ("EN", "N 6")];
    for first in firsts {
        check(&[&[first], &then[..]].concat(), &["files 1", "1 2 1 -"]);
    }
}

/// "The eight reports": of eight clients all report, of files past 31 too.
#[test]
fn eight_clients_report_on_64_files() {
    let dirty = [("SET 8 64 8", "K"), ("OW 0 63", "G 2 1 1"), ("WR 0 63 7 5", "K"), ("CW 0 63", "K")];
    let before = [&dirty[..], &[("OR 7 32", "G 1 0 1")]].concat();
    check(&[&before[..], &RECOVERY].concat(), &["files 2", "32 2 1 -", "63 1 2 0"]);
}

/// Without a line SET "8, 32 and 4 hold".
#[test]
fn the_usual_sizes_hold_without_a_set_line() {
    check(
        &[("OR 7 31", "G 1 0 1"), ("RD 7 31 3", "V 0"), ("OR 8 31", "N 2"), ("OR 7 32", "N 3"), ("RD 7 31 4", "N 4")],
        &["files 1", "31 2 1 -"],
    );
}
