//! The reader against a plain one, which splits lines at spaces and takes numbers that print as they were written.

use model::generate::{FileKind, step_file};
use model::{LONGEST_STEP, Mode, Settings, Step, read_line, read_settings};

fn plainly_read(line: &[u8]) -> Option<Step> {
    let mut fields = str::from_utf8(line).ok()?.split(' ');
    let word = fields.next()?;
    let numbers: Vec<u64> = fields.map(number).collect::<Option<_>>()?;
    Some(match (word, numbers[..].iter().as_slice()) {
        ("OR", &[client, file]) => Step::Open { mode: Mode::Read, client, file },
        ("OW", &[client, file]) => Step::Open { mode: Mode::Write, client, file },
        ("CR", &[client, file]) => Step::Close { mode: Mode::Read, client, file },
        ("CW", &[client, file]) => Step::Close { mode: Mode::Write, client, file },
        ("AN", &[client, file]) => Step::Reply { client, file },
        ("RD", &[client, file, block]) => Step::Read { client, file, block },
        ("FL", &[client, file, block]) => Step::Flush { client, file, block },
        ("WR", &[client, file, block, value]) => Step::Write { client, file, block, value },
        ("XX", &[]) => Step::Crash,
        ("RP", &[client]) => Step::Report { client },
        ("EN", &[]) => Step::End,
        ("BT", &[client]) => Step::Restart { client },
        ("EM", &[client, file]) => Step::Embargo { client, file },
        ("LF", &[client]) => Step::Lift { client },
        _ => return None,
    })
}

fn plainly_read_settings(line: &[u8]) -> Option<Settings> {
    let fields: Vec<&str> = str::from_utf8(line).ok()?.split(' ').collect();
    let (clients, files, blocks, store) = match fields[..] {
        ["SET", clients, files, blocks] => (clients, files, blocks, "512"),
        ["SET", clients, files, blocks, store] => (clients, files, blocks, store),
        _ => return None,
    };
    Some(Settings { clients: number(clients)?, files: number(files)?, blocks: number(blocks)?, store: number(store)? })
}

fn number(field: &str) -> Option<u64> {
    let value: u64 = field.parse().ok()?;
    (value.to_string() == field).then_some(value)
}

fn assert_read_alike(line: &[u8]) {
    let plain = plainly_read(line);
    assert_eq!(read_line(line), (plain, line.len()), "{}", line.escape_ascii());
    let with_lf = [line, b"\nOR 0 0\n"].concat();
    assert_eq!(read_line(&with_lf), (plain, line.len() + 1), "{}", line.escape_ascii());
    let settings = plainly_read_settings(line);
    assert_eq!(read_settings(line), settings.map(|set| (set, line.len())), "{}", line.escape_ascii());
    assert_eq!(read_settings(&with_lf), settings.map(|set| (set, line.len() + 1)), "{}", line.escape_ascii());
}

#[test]
fn generated_lines_are_read_alike() {
    let mut steps = 0;
    let malformed = (0..20).map(|seed| (FileKind::Malformed, seed));
    let spoilt = [FileKind::Restart, FileKind::Embargo, FileKind::Space]
        .map(|kind| (0..10).map(move |seed| (kind, 4 * seed + 3)));
    for (kind, seed) in malformed.chain(spoilt.into_iter().flatten()) {
        for line in step_file(kind, seed, 2000).split(|&byte| byte == b'\n') {
            assert_read_alike(line);
            steps += usize::from(plainly_read(line).is_some());
        }
    }
    assert!(steps > 10_000);
}

/// Every line of up to three bytes from those that matter.
#[test]
fn short_lines_are_read_alike() {
    let bytes = b"XENRPODWBTMLF 019\t\r\0";
    assert_read_alike(b"");
    for &first in bytes {
        assert_read_alike(&[first]);
        for &second in bytes {
            assert_read_alike(&[first, second]);
            for &third in bytes {
                assert_read_alike(&[first, second, third]);
            }
        }
    }
}

#[test]
fn numbers_about_powers_of_ten_and_two_are_read_alike() {
    for exponent in 0..40 {
        for base in [2u128, 10] {
            let Some(power) = base.checked_pow(exponent * if base == 2 { 3 } else { 1 }) else { continue };
            for value in [power - 1, power, power + 1] {
                assert_read_alike(format!("OR {value} 0").as_bytes());
                assert_read_alike(format!("WR 0 0 0 {value}").as_bytes());
            }
        }
    }
}

/// A line SET is never a step as well.
#[test]
fn settings_are_read_alike() {
    let mut settings = 0;
    for seed in 0..200 {
        for kind in FileKind::ALL {
            for line in step_file(kind, seed, 60).split(|&byte| byte == b'\n') {
                assert_read_alike(line);
                assert!(plainly_read(line).is_none() || plainly_read_settings(line).is_none());
                settings += usize::from(plainly_read_settings(line).is_some());
            }
        }
    }
    assert!(settings > 200);
    let max = u64::MAX;
    for line in ["SET 1 2 3", "SET 0 0 0", &format!("SET {max} {max} {max}")] {
        assert!(read_settings(line.as_bytes()).is_some(), "{line}");
    }
    let spoilt = [
        "SET",
        "SET ",
        "SET 1",
        "SET 1 2",
        "SET 1 2 ",
        "SET 1 2 3 ",
        "SET 1 2 3 4 5",
        "SET 1 2 3 4 ",
        "SET 1 2 3 04",
        "SET 1 2 3  4",
        "SET 1 2 3 18446744073709551616",
        " SET 1 2 3",
        "SET  1 2 3",
        "SET 1  2 3",
        "SET 01 2 3",
        "SET 1 2 00",
        "SET 1 2 3\r",
        "set 1 2 3",
        "Set 1 2 3",
        "SE 1 2 3",
        "SETS 1 2 3",
        "SET1 2 3",
        "SET\t1 2 3",
        "SET 18446744073709551616 2 3",
        "SET 1 2 +3",
        "SET 1 -2 3",
        "SET 1 2 3.0",
        "SET 1,2,3",
        "T 1 2 3",
        "XX SET 1 2 3",
    ];
    for line in spoilt {
        assert_read_alike(line.as_bytes());
        assert!(read_settings(line.as_bytes()).is_none(), "{line}");
    }
}

#[test]
fn the_longest_step_has_86_bytes() {
    let max = u64::MAX;
    let longest = format!("WR {max} {max} {max} {max}");
    assert_eq!(longest.len(), LONGEST_STEP);
    assert!(matches!(read_line(longest.as_bytes()), (Some(Step::Write { value: u64::MAX, .. }), LONGEST_STEP)));
}
