//! The hand-written counted files, and the model's counter against what the model's explainer says of the same lines.

mod beside;

use model::Service;
use model::sample::{Kind, Sample};
use model::traffic::{Column, Table, Totals, counted, counted_from, table_from};

use beside::{check, inputs};

#[test]
fn every_counted_file_is_met() {
    let vectors = inputs("tests/traffic");
    vectors.iter().for_each(|path| check(path, "out", counted, counted_from));
    assert!(vectors.len() > 50);
}

#[test]
fn every_example_is_met() {
    let examples = inputs("examples");
    examples.iter().for_each(|path| check(path, "traffic", counted, counted_from));
    assert_eq!(examples.len(), 5);
}

/// No total ends at 16 bits.
#[test]
fn totals_grow_past_16_bits() {
    let input = ["OR 1 0\n", "RD 1 0 0\n".repeat(70_000).as_str()].concat();
    let table = table_from(Service::fresh(), false, input.as_bytes());
    assert_eq!((table.all[Column::Hits], table.all[Column::AcceptedReads]), (69_999, 70_000));
    assert_eq!(table.all, table.clients[1]);
}

/// The same totals, from the text of the explained lines.
#[test]
fn totals_are_those_of_the_explained_lines() {
    for seed in 0..33 {
        for kind in Kind::ALL {
            let sample = Sample::of(kind, seed, 600);
            let Table { clients, all, .. } = sample.table();
            let (expected, sum) = told(&sample);
            assert_eq!((&clients[..], all), (&expected[..], sum), "{}", sample.name);
        }
    }
}

/// The totals of each client and of the whole, by the lines of the step file and what is said of each. It counts what
/// is said alone, and knows nothing of the service.
fn told(sample: &Sample) -> (Vec<Totals>, Totals) {
    let explained = String::from_utf8(sample.explained()).expect("the output is ASCII");
    let steps = sample.input.split_inclusive(|&byte| byte == b'\n').map(String::from_utf8_lossy);
    let mut clients = vec![Totals::default(); 8];
    for (step, said) in steps.zip(explained.lines()) {
        let step: Vec<&str> = step.trim_end_matches('\n').split(' ').collect();
        let (reply, sentence) = said.split_once("    ").expect("a reply has a sentence");
        let reply: Vec<&str> = reply.split(' ').skip(1).collect();
        count_line(&step, &reply, sentence, &mut clients);
    }
    let mut all = Totals::default();
    clients.iter().for_each(|totals| all.add(totals));
    (clients, all)
}

fn count_line(step: &[&str], reply: &[&str], sentence: &str, clients: &mut [Totals]) {
    let of_no_client = matches!(step, ["XX" | "EN" | "SET", ..]) || matches!(reply, ["N", "1" | "2" | "19"]);
    if of_no_client {
        return;
    }
    let client: usize = step[1].parse().expect("the step names a client");
    let mut add = |client: usize, column, times: u64| clients[client][column] += times;
    match (step[0], reply) {
        (_, ["N", _]) => add(client, Column::Refusals, 1),
        (_, ["G", ..]) => add(client, Column::Opens, 1),
        (_, ["W", calls @ ..]) => calls.iter().for_each(|call| add(number(&call[..1]), Column::Calls, 1)),
        (_, ["V", _]) => {
            let own_copy = sentence.contains(": from its own copy");
            assert!(own_copy != sentence.contains(": from the server"), "{sentence}");
            add(client, if own_copy { Column::Hits } else { Column::Fetches }, 1);
            add(client, Column::AcceptedReads, 1);
        }
        (_, ["A", sent, grants @ ..]) => {
            add(client, Column::WritesSent, number(sent) as u64);
            grants.chunks(4).for_each(|grant| add(number(grant[0]), Column::Opens, 1));
        }
        ("BT", ["K", grants @ ..]) => grants.chunks(4).for_each(|grant| add(number(grant[0]), Column::Opens, 1)),
        ("CR" | "CW", ["K"]) => add(client, Column::Closes, 1),
        ("FL", ["K"]) => add(client, Column::WritesSent, 1),
        ("WR", ["K"]) => add(client, Column::WritesSent, u64::from(sentence.contains(" at the server"))),
        ("RP" | "LF", ["K"]) => {}
        other => panic!("what is said of {other:?}?"),
    }
}

fn number(text: &str) -> usize {
    text.parse().expect("it is a number")
}
