//! Faults of the lines that tell an answer or a restart: the reply is the right one, and its fields are printed wrongly.

use crate::fault::{Fault, Wrong};

const fn fault(name: &'static str, said: fn(&[u8]) -> Vec<u8>) -> Fault {
    Fault { name, wrong: Wrong::Said(said), unseen: None }
}

pub const FAULTS: &[Fault] = &[
    fault("blocks_told_after_the_grant", |output| answers(output, |blocks, grant| [grant, &[blocks]].concat())),
    fault("blocks_told_after_the_opener", |output| {
        answers(output, |blocks, grant| match grant {
            [opener, granted @ ..] => [&[*opener, blocks], granted].concat(),
            [] => vec![blocks],
        })
    }),
    fault("blocks_not_told", |output| answers(output, |_, grant| grant.to_vec())),
    fault("blocks_not_told_without_a_grant", |output| {
        answers(output, |blocks, grant| if grant.is_empty() { vec![] } else { [&[blocks], grant].concat() })
    }),
    fault("blocks_not_told_with_a_grant", |output| {
        answers(output, |blocks, grant| if grant.is_empty() { vec![blocks] } else { grant.to_vec() })
    }),
    fault("no_blocks_not_told", |output| {
        answers(output, |blocks, grant| if blocks == b"0" { grant.to_vec() } else { [&[blocks], grant].concat() })
    }),
    fault("grants_of_a_restart_told_by_descending_file", |output| {
        restarts(output, |grants| grants.rchunks(4).flatten().copied().collect())
    }),
    fault("grants_of_a_restart_told_by_client", |output| {
        restarts(output, |grants| {
            let mut grants: Vec<&[&[u8]]> = grants.chunks(4).collect();
            grants.sort();
            grants.concat()
        })
    }),
    fault("grants_of_a_restart_not_told", |output| restarts(output, |_| vec![])),
    fault("first_grant_of_a_restart_told_alone", |output| {
        restarts(output, |grants| grants.iter().take(4).copied().collect())
    }),
    fault("grants_of_a_restart_told_without_their_client", |output| {
        restarts(output, |grants| grants.chunks(4).flat_map(|grant| &grant[1..]).copied().collect())
    }),
    fault("restart_answered_as_a_callback_reply_is", |output| {
        by_line(output, |fields| match fields {
            [number, b"K", grants @ ..] if !grants.is_empty() => [&[*number, b"A"], grants].concat(),
            _ => fields.to_vec(),
        })
    }),
];

/// The output, with the fields after each K changed that tells grants, four for each.
fn restarts<'a>(output: &'a [u8], change: impl Fn(&[&'a [u8]]) -> Vec<&'a [u8]>) -> Vec<u8> {
    by_line(output, |fields| match fields {
        [number, b"K", grants @ ..] if !grants.is_empty() => [vec![*number, b"K"], change(grants)].concat(),
        _ => fields.to_vec(),
    })
}

/// The output, with the fields after each A changed: the number of blocks, and those of the grant.
fn answers<'a>(output: &'a [u8], change: impl Fn(&'a [u8], &[&'a [u8]]) -> Vec<&'a [u8]>) -> Vec<u8> {
    by_line(output, |fields| match fields {
        [number, b"A", blocks, grant @ ..] => [vec![*number, b"A"], change(blocks, grant)].concat(),
        _ => fields.to_vec(),
    })
}

/// The output, with the fields of each line changed.
fn by_line<'a>(output: &'a [u8], change: impl Fn(&[&'a [u8]]) -> Vec<&'a [u8]>) -> Vec<u8> {
    let line = |line: &'a [u8]| change(&line.split(|&byte| byte == b' ').collect::<Vec<_>>()).join(&b' ');
    output.split(|&byte| byte == b'\n').map(line).collect::<Vec<_>>().join(&b'\n')
}
