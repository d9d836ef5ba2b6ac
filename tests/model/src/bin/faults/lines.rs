//! Faults of reading lines: the text is changed as a lenient or careless reader would take it, then played rightly.

use crate::fault::{Fault, Wrong};

const fn fault(name: &'static str, taken: fn(&[u8]) -> Vec<u8>) -> Fault {
    Fault { name, wrong: Wrong::Text(taken), unseen: None }
}

pub const FAULTS: &[Fault] = &[
    fault("carriage_return_ignored", |input| by_line(input, without_cr)),
    fault("trailing_space_ignored", |input| by_line(input, |line| line.trim_ascii_end().into())),
    fault("leading_space_ignored", |input| by_line(input, |line| line.trim_ascii_start().into())),
    fault("double_space_taken_for_one", |input| by_line(input, with_single_spaces)),
    fault("tab_taken_for_space", |input| by_line(input, with_spaces_for_tabs)),
    fault("lower_case_accepted", |input| input.to_ascii_uppercase()),
    fault("leading_zero_accepted", |input| by_field(input, without_zeros)),
    fault("plus_sign_accepted", |input| by_field(input, without_plus)),
    fault("number_wraps_at_2_64", |input| by_field(input, wrapped)),
    fault("number_stops_at_2_64_less_1", |input| by_field(input, capped)),
    fault("number_limited_to_63_bits", |input| by_field(input, signed)),
    fault("extra_field_ignored", |input| by_line(input, without_extra_fields)),
    fault("nul_ends_the_line", |input| by_line(input, up_to_nul)),
    fault("empty_line_not_counted", without_empty_lines),
    fault("last_line_without_lf_ignored", whole_lines),
    fault("long_line_cut_in_two", |input| by_line(input, cut_at_buffer)),
    fault("line_of_87_bytes_cut_to_86", |input| by_line(input, |line| line[..line.len().min(86)].into())),
    fault("extra_line_after_last_lf", |input| [input, b"\n"].concat()),
];

fn by_line(input: &[u8], change: impl Fn(&[u8]) -> Vec<u8>) -> Vec<u8> {
    input.split(|&byte| byte == b'\n').map(change).collect::<Vec<_>>().join(&b'\n')
}

fn by_field(input: &[u8], change: impl Fn(&[u8]) -> Vec<u8>) -> Vec<u8> {
    by_line(input, |line| line.split(|&byte| byte == b' ').map(&change).collect::<Vec<_>>().join(&b' '))
}

fn without_cr(line: &[u8]) -> Vec<u8> {
    line.strip_suffix(b"\r").unwrap_or(line).into()
}

fn with_single_spaces(line: &[u8]) -> Vec<u8> {
    let mut kept = line.to_vec();
    kept.dedup_by(|next, before| *next == b' ' && *before == b' ');
    kept
}

fn with_spaces_for_tabs(line: &[u8]) -> Vec<u8> {
    line.iter().map(|&byte| if byte == b'\t' { b' ' } else { byte }).collect()
}

fn is_number(field: &[u8]) -> bool {
    !field.is_empty() && field.iter().all(u8::is_ascii_digit)
}

fn without_zeros(field: &[u8]) -> Vec<u8> {
    if !is_number(field) {
        return field.into();
    }
    let zeros = field.iter().take_while(|&&digit| digit == b'0').count();
    field[zeros.min(field.len() - 1)..].into()
}

fn without_plus(field: &[u8]) -> Vec<u8> {
    match field {
        [b'+', rest @ ..] if is_number(rest) => rest.into(),
        _ => field.into(),
    }
}

/// The number for which another stands, if the field is one past 64 bits.
fn beyond_64_bits(field: &[u8]) -> Option<u64> {
    let past = is_number(field) && field[0] != b'0' && str::from_utf8(field).ok()?.parse::<u64>().is_err();
    past.then(|| field.iter().fold(0u64, |value, digit| value.wrapping_mul(10).wrapping_add(u64::from(digit - b'0'))))
}

fn wrapped(field: &[u8]) -> Vec<u8> {
    beyond_64_bits(field).map_or(field.into(), |value| value.to_string().into())
}

fn capped(field: &[u8]) -> Vec<u8> {
    beyond_64_bits(field).map_or(field.into(), |_| u64::MAX.to_string().into())
}

/// Numbers of 2 to the 63rd and more are taken for no numbers.
fn signed(field: &[u8]) -> Vec<u8> {
    let number = str::from_utf8(field).ok().and_then(|text| text.parse::<u64>().ok());
    if number.is_some_and(|value| i64::try_from(value).is_err()) { b"?".into() } else { field.into() }
}

fn without_extra_fields(line: &[u8]) -> Vec<u8> {
    let fields: Vec<&[u8]> = line.split(|&byte| byte == b' ').collect();
    let needed = match fields[0] {
        b"XX" | b"EN" => 1,
        b"RP" | b"BT" | b"LF" => 2,
        b"OR" | b"OW" | b"CR" | b"CW" | b"AN" | b"EM" => 3,
        b"RD" | b"FL" | b"SET" => 4,
        _ => 5,
    };
    fields[..fields.len().min(needed)].join(&b' ')
}

fn up_to_nul(line: &[u8]) -> Vec<u8> {
    line.split(|&byte| byte == 0).next().unwrap_or_default().into()
}

fn without_empty_lines(input: &[u8]) -> Vec<u8> {
    input.split_inclusive(|&byte| byte == b'\n').filter(|line| *line != b"\n").flatten().copied().collect()
}

fn whole_lines(input: &[u8]) -> Vec<u8> {
    let end = input.iter().rposition(|&byte| byte == b'\n').map_or(0, |lf| lf + 1);
    input[..end].into()
}

/// As a reader with a buffer of 64 KB might.
fn cut_at_buffer(line: &[u8]) -> Vec<u8> {
    line.chunks(64 * 1024).collect::<Vec<_>>().join(&b'\n')
}
