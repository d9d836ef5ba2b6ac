//! Faults of the words themselves.

use crate::fault::faults;

faults! {
    three_spaces_before_the_sentence: Text(|output| replaced(output, "    ", "   "));
    tab_before_the_sentence: Text(|output| replaced(output, "    ", "\t"));
    sentence_without_its_reply: Text(|output| by_line(output, |line| {
        line.split_once("    ").map_or(line, |(_, sentence)| sentence).into()
    }));
    reply_without_its_sentence: Text(|output| by_line(output, |line| {
        line.split_once("    ").map_or(line, |(reply, _)| reply).into()
    }));
    full_stop_after_the_sentence: Text(|output| by_line(output, |line| format!("{line}.")));
    space_at_the_end_of_a_line: Text(|output| by_line(output, |line| format!("{line} ")));
    empty_list_left_empty: Text(|output| replaced(output, ": none", ":"));
    dash_for_no_last_writer: Text(|output| replaced(output, "last writer: none", "last writer: -"));
    clients_in_place_of_stations: Text(|output| replaced(output, "station", "client"));
    picture_left_out: Text(|output| {
        let picture = |line: &&str| !line.starts_with(|first: char| first.is_ascii_digit());
        text(output).split_inclusive('\n').filter(|line| !picture(line)).collect::<String>().into_bytes()
    });
    picture_before_the_lines: Text(|output| {
        let is_line = |line: &&str| line.starts_with(|first: char| first.is_ascii_digit());
        let (lines, picture): (Vec<&str>, Vec<&str>) = text(output).split_inclusive('\n').partition(is_line);
        [picture.concat(), lines.concat()].concat().into_bytes()
    });
    nothing_said_of_no_refusal: Text(|output| replaced(output, "nothing was refused\n", ""));
    end_of_the_picture_missing: Text(|output| replaced(output, "end of the picture\n", ""));
    last_lf_missing: Text(|output| output.strip_suffix(b"\n").unwrap_or(output).into());
}

/// All output of an explainer is ASCII.
fn text(output: &[u8]) -> &str {
    str::from_utf8(output).expect("the output is text")
}

fn replaced(output: &[u8], old: &str, new: &str) -> Vec<u8> {
    text(output).replace(old, new).into_bytes()
}

fn by_line(output: &[u8], change: impl Fn(&str) -> String) -> Vec<u8> {
    text(output).lines().map(|line| change(line) + "\n").collect::<String>().into_bytes()
}
