//! What is told of reads on random runs: the facts by the book and by Demand 3's memory, the sentences by the text alone.

use std::ops::Range;

use model::check::{Provenance, ReferenceMemory};
use model::explain::{Distortion, Origin, Reading, Source, Told, distorted, explained};
use model::generate::{FileKind, step_file};
use model::{BLOCKS, CLIENTS, FILES, Service, Step};

/// An accepted write.
#[derive(Clone, Copy)]
struct Noted {
    line: u64,
    client: usize,
    fate: Fate,
}

#[derive(Clone, Copy, PartialEq)]
enum Fate {
    Safe,
    AtRisk,
    Lost,
}

/// The lines of a run as they are told, with the reference memory beside them.
struct Reads {
    line: u64,
    memory: ReferenceMemory,
    /// Of each block: each accepted write.
    writes: Vec<Vec<Noted>>,
    /// Of each client's block: the lines at which it came to the copy.
    copied: Vec<Vec<u64>>,
    /// Of each client: the line that put it under embargo, if it is.
    embargoed: [Option<u64>; CLIENTS],
    checked: u64,
    after_a_loss: u64,
    without_promise: u64,
}

impl Reads {
    fn new() -> Self {
        let (places, copies) = (FILES * BLOCKS, CLIENTS * FILES * BLOCKS);
        let (writes, copied) = (vec![vec![]; places], vec![vec![]; copies]);
        Reads {
            line: 0,
            memory: ReferenceMemory::default(),
            writes,
            copied,
            embargoed: [None; CLIENTS],
            checked: 0,
            after_a_loss: 0,
            without_promise: 0,
        }
    }

    fn check(&mut self, step: &Step, reading: &Reading) {
        self.checked += 1;
        let Reading { place, source, embargo, .. } = reading;
        let copy = place.client * FILES * BLOCKS + place.file * BLOCKS + place.block;
        match source {
            Source::OwnCopy { since, .. } => assert_eq!(Some(since), self.copied[copy].last(), "line {}", self.line),
            Source::Fetched => self.copied[copy].push(self.line),
            Source::Server => {}
        }
        assert_eq!(*embargo, self.embargoed[place.client], "line {}", self.line);
        match embargo {
            Some(_) => {
                assert!(matches!(source, Source::OwnCopy { .. }), "line {}", self.line);
                self.without_promise += 1;
            }
            None => self.check_origin(step, reading),
        }
    }

    fn check_origin(&mut self, step: &Step, Reading { place, origin, lost, .. }: &Reading) {
        let at = place.file * BLOCKS + place.block;
        let expected = self.memory.expected(step).expect("the step is a read");
        let latest = self.writes[at].last();
        match (origin, self.writes[at].iter().rfind(|write| write.fate != Fate::Lost)) {
            (Origin::Written(write), Some(kept)) => {
                let (told, due) = ((write.line, write.client, write.value), (kept.line, kept.client, expected));
                assert_eq!(told, due, "line {}", self.line);
            }
            (Origin::NeverWritten, None) => assert_eq!((expected, latest.is_none()), (0, true)),
            (Origin::Start, None) => assert_eq!((expected, latest.is_some()), (0, true)),
            (told, _) => panic!("line {}: {told:?} is told", self.line),
        }
        let lost_latest = latest.filter(|write| write.fate == Fate::Lost).map(|write| (write.line, write.client));
        assert_eq!(lost.map(|write| (write.line, write.client)), lost_latest, "line {}", self.line);
        self.after_a_loss += u64::from(lost.is_some());
    }

    /// The writes at risk of this client, of these blocks, have this fate.
    fn decide(&mut self, client: usize, blocks: Range<usize>, fate: Fate) {
        let writes = self.writes[blocks].iter_mut().flatten();
        writes.filter(|write| write.client == client && write.fate == Fate::AtRisk).for_each(|write| write.fate = fate);
    }
}

impl Distortion for Reads {
    fn line(&mut self, _service: &Service, step: Option<&Step>, told: &mut Told) {
        self.line += 1;
        let Some(step) = step else { return };
        let delayed = matches!(told, Told::Written { in_copy: true, .. });
        match told {
            Told::Read(reading) => self.check(step, reading),
            Told::Written { place, in_copy, embargo, .. } => {
                let at = place.file * BLOCKS + place.block;
                assert_eq!(*embargo, self.embargoed[place.client], "line {}", self.line);
                let fate = match (embargo, *in_copy) {
                    (Some(_), _) => Fate::Lost,
                    (None, true) => Fate::AtRisk,
                    (None, false) => Fate::Safe,
                };
                self.writes[at].push(Noted { line: self.line, client: place.client, fate });
                if *in_copy {
                    self.copied[place.client * FILES * BLOCKS + at].push(self.line);
                }
            }
            Told::Flushed(place) => {
                let at = place.file * BLOCKS + place.block;
                self.decide(place.client, at..at + 1, Fate::Safe);
            }
            Told::Answered { client, file, .. } => {
                self.decide(*client, *file * BLOCKS..(*file + 1) * BLOCKS, Fate::Safe);
            }
            Told::AnsweredLast { client, granted, .. } => {
                let file = granted.opening.file;
                self.decide(*client, file * BLOCKS..(file + 1) * BLOCKS, Fate::Safe);
            }
            Told::Restarted { client, .. } => {
                self.decide(*client, 0..FILES * BLOCKS, Fate::Lost);
                self.embargoed[*client] = None;
            }
            Told::Embargoed { client, .. } => {
                self.decide(*client, 0..FILES * BLOCKS, Fate::Lost);
                self.embargoed[*client] = Some(self.line);
            }
            Told::Lifted { client, .. } => self.embargoed[*client] = None,
            _ => {}
        }
        self.memory.feed(step, matches!(told, Told::Refused(_)), delayed);
    }
}

#[test]
fn the_latest_write_and_the_copy_are_told() {
    let (mut checked, mut after_a_loss, mut without_promise) = (0, 0, 0);
    for kind in FileKind::ALL {
        for seed in 0..30 {
            let mut reads = Reads::new();
            distorted(Service::fresh(), false, &step_file(kind, seed, 2000), &mut reads);
            checked += reads.checked;
            after_a_loss += reads.after_a_loss;
            without_promise += reads.without_promise;
        }
    }
    assert!(checked > 50_000 && after_a_loss > 500, "{checked}, {after_a_loss}");
    assert!(without_promise > 500, "{without_promise}");
}

#[test]
fn the_text_bears_out_every_sentence_of_a_read() {
    let mut provenance = Provenance::default();
    for kind in FileKind::ALL {
        for seed in 0..30 {
            let input = step_file(kind, seed, 2000);
            let checked = provenance.check(&input, &explained(&input), None);
            assert_eq!(checked, Ok(()), "{} seed {seed}", kind.name());
        }
    }
    assert!(provenance.reads() > 50_000, "{provenance}");
    assert!(provenance.reads_after_a_loss() > 500 && provenance.writes_lost() > 500, "{provenance}");
    assert!(provenance.least_of_embargoes() > 500, "{provenance}");
}

/// A line in which one word is wrong, for each part of the sentences about embargoes.
#[test]
fn the_text_shows_a_wrong_embargo() {
    let before = "OW 0 0\nWR 0 0 0 5\nOW 0 1\nWR 0 1 0 6\nOR 1 0\nEM 0 0\n";
    let after = "RD 0 0 0\nWR 0 0 0 7\nRD 0 0 0\nOR 0 2\nLF 1\nRD 1 0 0\nLF 0\nOR 0 0\nRD 0 0 0\n";
    check_wrong(
        &[before, after].concat(),
        &[
            (6, "A 0 1", "A 1 1"),
            (6, "station 0 is put", "station 1 is put"),
            (6, "is put under embargo", "restarts"),
            (6, "open: 0 1;", "open: 0;"),
            (6, "file 0 block 0 at line 2, ", ""),
            (6, "block 0 at line 4", "block 0 at line 3"),
            (6, "; station 1 has", "; station 2 has"),
            (7, "V 5", "V 0"),
            (7, ", dirty", ""),
            (7, "since line 2", "since line 1"),
            (7, "nothing is promised: it is under embargo since line 6", "written by station 0 at line 2"),
            (7, "embargo since line 6", "embargo since line 5"),
            (7, "embargo since line 6", "embargo, as the image has it"),
            (8, "; lost: it is under embargo since line 6", ""),
            (8, "since line 6", "since line 5"),
            (9, "V 7", "V 5"),
            (9, "since line 8", "since line 2"),
            (10, "station 0", "station 1"),
            (10, "since line 6", "since line 9"),
            (11, "station 1", "station 0"),
            (12, "V 0", "V 5"),
            (12, "as at the start", "never written"),
            (12, "at line 8 was lost", "at line 2 was lost"),
            (13, "open: 0 1", "open: none"),
            (13, "station 0 is told", "station 1 is told"),
            (15, "V 0", "V 7"),
            (15, "; the write of station 0 at line 8 was lost", ""),
        ],
    );
}

/// A line in which one word is wrong, for each part of the sentences of restarts and of reads after them.
#[test]
fn the_text_shows_a_wrong_loss() {
    let input =
        "OW 0 0\nWR 0 0 0 5\nFL 0 0 0\nWR 0 0 0 6\nWR 0 0 1 7\nOW 0 1\nWR 0 1 0 8\nOR 1 0\nBT 0\nRD 1 0 0\nRD 1 0 1\n";
    check_wrong(
        input,
        &[
            (9, "station 0 restarts", "station 1 restarts"),
            (9, "open: 0 1;", "open: 0;"),
            (9, "open: 0 1;", "open: none;"),
            (9, "file 0 block 0 at line 4, ", ""),
            (9, "block 0 at line 4", "block 0 at line 2"),
            (9, "block 1 at line 5", "block 2 at line 5"),
            (9, ", file 1 block 0 at line 7", ""),
            (9, "; station 1 has", "; station 2 has"),
            (10, "V 5", "V 6"),
            (10, "written by station 0 at line 2", "written by station 0 at line 4"),
            (10, "the write of station 0 at line 4", "the write of station 0 at line 2"),
            (10, "the write of station 0", "the write of station 1"),
            (10, "; the write of station 0 at line 4 was lost", ""),
            (11, "as at the start", "never written"),
            (11, "as at the start", "as the image has it"),
            (11, "; the write of station 0 at line 5 was lost", ""),
        ],
    );
}

/// A line in which one word is wrong, for each part of the sentence of a read.
#[test]
fn the_text_shows_a_wrong_sentence() {
    let input = "OW 0 0\nWR 0 0 0 5\nWR 0 0 0 6\nRD 0 0 0\nFL 0 0 0\nRD 0 0 0\nRD 0 0 1\nRD 0 0 1\n";
    let wrong = [
        (4, "V 6", "V 5"),
        (4, "station 0, file", "station 1, file"),
        (4, "file 0", "file 1"),
        (4, "block 0", "block 1"),
        (4, "its own copy, dirty", "its own copy"),
        (4, "since line 3", "since line 2"),
        (4, "by station 0", "by station 1"),
        (4, "at line 3", "at line 2"),
        (4, "; written by station 0 at line 3", "; never written"),
        (4, "4 V 6    ", "4 V 6   "),
        (4, "4 V 6", "5 V 6"),
        (6, "its own copy", "its own copy, dirty"),
        (6, "at line 3", "at line 5"),
        (7, "V 0", "V 1"),
        (7, "never written", "as the image has it"),
        (7, "from the server", "from its own copy, since line 7"),
        (8, "since line 7", "since line 8"),
        (8, "never written", "written by station 0 at line 0"),
    ];
    check_wrong(input, &wrong);
}

/// A line, what it says, and what it says wrongly in that place.
fn check_wrong(input: &str, wrong: &[(u64, &str, &str)]) {
    let right = String::from_utf8(explained(input.as_bytes())).expect("the output is ASCII");
    let check = |output: &str| Provenance::default().check(input.as_bytes(), output.as_bytes(), None);
    assert_eq!(check(&right), Ok(()));
    for &(line, old, new) in wrong {
        let change = |(text, number): (&str, u64)| {
            assert!(number != line || text.contains(old), "{text} has {old}");
            if number == line { text.replacen(old, new, 1) } else { text.into() }
        };
        let wrong: Vec<String> = right.lines().zip(1..).map(change).collect();
        let found = check(&wrong.join("\n")).expect_err(new);
        assert_eq!(found.line, line, "{old} to {new}: {found:?}");
    }
}
