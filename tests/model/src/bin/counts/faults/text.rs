//! Faults of the print, and of what is read.

use crate::fault::faults;

faults! {
    // The print.
    last_lf_missing: Text(|output| output.trim_end().into());
    two_spaces_between: Text(|output| output.replace(' ', "  "));
    tab_between: Text(|output| output.replace(' ', "\t"));
    space_at_the_end_of_a_line: Text(|output| output.replace('\n', " \n"));
    cr_at_the_end_of_a_line: Text(|output| output.replace('\n', "\r\n"));
    empty_line_at_the_end: Text(|output| format!("{output}\n"));
    all_missing: Text(|output| lines(output, |line| !line.starts_with("all")));
    all_first: Text(|output| {
        lines(output, |line| line.starts_with("all")) + &lines(output, |line| !line.starts_with("all"))
    });
    total_for_all: Text(|output| output.replace("all", "total"));
    client_without_traffic_missing: Text(|output| lines(output, |line| !line.ends_with(" 0 0 0 0 0 0 0 0\n")));
    accepted_reads_missing: Text(|output| {
        let without_the_last = |line: &str| line.rsplit_once(' ').map_or(line, |(rest, _)| rest).to_string() + "\n";
        output.lines().map(without_the_last).collect()
    });

    // What is read.
    last_line_without_lf_not_read: Read(|sample| {
        let whole = sample.input.iter().rposition(|&byte| byte == b'\n').map_or(0, |lf| lf + 1);
        sample.input.truncate(whole);
    });
    first_line_not_read: Read(|sample| {
        let rest = sample.input.iter().position(|&byte| byte == b'\n').map_or(sample.input.len(), |lf| lf + 1);
        sample.input.drain(..rest);
    });
    settings_not_taken: Read(|sample| {
        if sample.input.starts_with(b"SET ") {
            sample.input[0] = b'x';
        }
    });
    image_not_read: Read(|sample| sample.image = None);
}

/// The lines, each with its LF, of whom this holds.
fn lines(output: &str, holds: impl Fn(&str) -> bool) -> String {
    output.split_inclusive('\n').filter(|line| holds(line)).collect()
}
