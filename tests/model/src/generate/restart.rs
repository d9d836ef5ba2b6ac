//! Scenes of restarts (document 02, Wish 8).

use super::scene::{Cast, cut, put_to_rest};
use super::stage::Stage;
use crate::{Mode, Step};

/// The steps of some scene with a restart, for a service that neither recovers nor has an open that waits.
pub fn restart_scene(stage: &mut Stage) -> Vec<Step> {
    let cast = Cast::of(stage);
    let other = stage.next_file(cast.file);
    let before = [cast.file, other].map(|file| put_to_rest(stage, file).unwrap_or_default()).concat();
    let play = *stage.rng.pick(&RESTARTS);
    let mut steps = [before, play(&Restarting { cast, other })].concat();
    cut(stage, &mut steps);
    steps
}

/// Who takes part, and another file, a different one where the scope has two.
struct Restarting {
    cast: Cast,
    other: u64,
}

impl Restarting {
    fn restart(&self, client: usize) -> Step {
        Step::Restart { client: self.cast.clients[client] }
    }

    fn report(&self, client: usize) -> Step {
        Step::Report { client: self.cast.clients[client] }
    }

    fn open(&self, mode: Mode, client: usize) -> Step {
        self.cast.open(mode, client)
    }

    fn open_other(&self, mode: Mode, client: usize) -> Step {
        Step::Open { mode, client: self.cast.clients[client], file: self.other }
    }

    fn write_other(&self) -> Step {
        Step::Write { client: self.cast.clients[0], file: self.other, block: 0, value: 9 }
    }

    fn read_other(&self, client: usize) -> Step {
        Step::Read { client: self.cast.clients[client], file: self.other, block: 0 }
    }

    /// Client 0 opens for write, sends the first of two writes to a block, and has a third one in its copy.
    fn writes_some(&self) -> Vec<Step> {
        let cast = &self.cast;
        vec![
            cast.open(Mode::Write, 0),
            cast.write(0),
            cast.flush(0),
            cast.write(1),
            cast.write_at(cast.first_block(), 5),
        ]
    }

    /// Client 0 has both files open for write, with writes in its copies.
    fn writes_both(&self) -> Vec<Step> {
        let opens = vec![self.open_other(Mode::Write, 0), self.write_other()];
        [self.writes_some(), opens].concat()
    }

    /// Clients 0 and 1 read, and client 2 waits to write.
    fn two_called(&self) -> Vec<Step> {
        let read = [self.open(Mode::Read, 0), self.cast.read(0, 0), self.open(Mode::Read, 1), self.cast.read(1, 0)];
        [&read[..], &[self.open(Mode::Write, 2)]].concat()
    }

    /// What each client then reads.
    fn reads(&self) -> Vec<Step> {
        let reads = [0, 1, 2].map(|client| [self.cast.read(client, 0), self.cast.read(client, 1)]);
        reads.concat()
    }
}

/// The files are CLOSED before, unless they have too many opens.
type Play = fn(&Restarting) -> Vec<Step>;

const RESTARTS: [Play; 19] = [
    // The waiting opener, with one answer in: a call that was out is gone, and the next opener calls who may still cache.
    |play| {
        let gone =
            [play.cast.reply(0), play.restart(2), play.cast.reply(1), play.open(Mode::Read, 2), play.cast.reply(1)];
        [play.two_called(), gone.to_vec(), play.reads()].concat()
    },
    // The waiting opener that has the file open for read.
    |play| {
        let waits = [play.open(Mode::Read, 0), play.open(Mode::Read, 1), play.open(Mode::Write, 1), play.restart(1)];
        [&waits[..], &[play.cast.reply(0), play.open(Mode::Write, 2), play.cast.reply(0)], &play.reads()].concat()
    },
    // The only one called, a writer, and a last writer that has closed.
    |play| [play.writes_some(), vec![play.open(Mode::Read, 1), play.restart(0)], play.reads()].concat(),
    |play| [play.cast.written(&[0, 1]), vec![play.open(Mode::Write, 1), play.restart(0)], play.reads()].concat(),
    // One of two called, and both of them.
    |play| [play.two_called(), vec![play.restart(0), play.cast.reply(1)], play.reads()].concat(),
    |play| [play.two_called(), vec![play.cast.reply(1), play.restart(0)], play.reads()].concat(),
    |play| [play.two_called(), vec![play.restart(1), play.restart(0)], play.reads()].concat(),
    // The last one called on two files at once, by two clients and by one.
    |play| {
        let waits = vec![play.open_other(Mode::Read, 1), play.open(Mode::Read, 2), play.restart(0), play.read_other(1)];
        [play.writes_both(), waits, play.reads()].concat()
    },
    |play| {
        let waits =
            vec![play.open(Mode::Write, 1), play.open_other(Mode::Read, 1), play.restart(0), play.read_other(1)];
        [play.writes_both(), waits, play.reads()].concat()
    },
    // The last writer, and then a reader.
    |play| [play.cast.written(&[0, 1]), vec![play.restart(0)], play.cast.next_reader()].concat(),
    // One with both files open, which then opens one anew.
    |play| {
        let anew = vec![play.restart(0), play.cast.read(0, 0), play.open(Mode::Read, 0)];
        [play.writes_both(), anew, play.reads()].concat()
    },
    // A reader that opens anew at the same version, and tries its copy in a recovery.
    |play| {
        let anew = [play.open(Mode::Read, 0), play.cast.read(0, 0), play.restart(0), play.open(Mode::Read, 0)];
        [&anew[..], &[Step::Crash, play.cast.read(0, 0)], &play.cast.reports()].concat()
    },
    // One with every block dirty, which then has none to flush.
    |play| [play.cast.all_written(), vec![play.restart(0)], play.cast.all_flushed(), play.cast.next_reader()].concat(),
    // Twice in a row.
    |play| {
        let twice = vec![play.restart(0), play.restart(0), play.open(Mode::Write, 1)];
        [play.writes_some(), twice, play.reads()].concat()
    },
    // A writer without permission: its writes are at the server.
    |play| {
        let shared = [play.open(Mode::Write, 1), play.open(Mode::Write, 0), play.cast.reply(1), play.cast.write(0)];
        [&shared[..], &[play.restart(0), play.cast.read(1, 0), play.open(Mode::Read, 2)], &play.reads()].concat()
    },
    // In recovery, before the report: it stands as an empty one.
    |play| {
        let crash = vec![Step::Crash, play.restart(0), play.report(0)];
        [play.writes_both(), crash, play.cast.reports(), play.cast.next_reader()].concat()
    },
    // After the report, of a writer and of a last writer, and twice.
    |play| {
        let crash = vec![Step::Crash, play.report(1), play.report(0), play.restart(0), play.report(0)];
        [play.writes_both(), crash, play.cast.reports(), play.cast.next_reader()].concat()
    },
    |play| {
        let crash = vec![Step::Crash, play.report(0), play.restart(0), play.restart(0)];
        [play.cast.written(&[0, 1]), crash, play.cast.reports(), play.cast.next_reader()].concat()
    },
    // A second crash takes the restart's report back.
    |play| {
        let crashes = vec![Step::Crash, play.restart(0), Step::Crash, play.report(0), play.restart(1)];
        [play.writes_some(), crashes, play.cast.reports(), play.cast.next_reader()].concat()
    },
];
