//! Steps as they are written in a step file.

use std::io::Write;

use crate::{Mode, Step};

pub fn write_step(step: &Step, text: &mut Vec<u8>) {
    match *step {
        Step::Open { mode, client, file } => write!(text, "O{} {client} {file}", letter(mode)),
        Step::Close { mode, client, file } => write!(text, "C{} {client} {file}", letter(mode)),
        Step::Reply { client, file } => write!(text, "AN {client} {file}"),
        Step::Read { client, file, block } => write!(text, "RD {client} {file} {block}"),
        Step::Write { client, file, block, value } => write!(text, "WR {client} {file} {block} {value}"),
        Step::Flush { client, file, block } => write!(text, "FL {client} {file} {block}"),
        Step::Crash => write!(text, "XX"),
        Step::Report { client } => write!(text, "RP {client}"),
        Step::End => write!(text, "EN"),
        Step::Restart { client } => write!(text, "BT {client}"),
        Step::Embargo { client, file } => write!(text, "EM {client} {file}"),
        Step::Lift { client } => write!(text, "LF {client}"),
    }
    .expect("a vector takes every byte");
}

fn letter(mode: Mode) -> char {
    match mode {
        Mode::Read => 'R',
        Mode::Write => 'W',
    }
}
