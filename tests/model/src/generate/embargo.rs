//! Scenes of embargoes (document 02, Wish 9).

use super::scene::{Cast, cut, put_to_rest};
use super::stage::Stage;
use crate::{Mode, Step};

/// The steps of some scene with an embargo, for a service that neither recovers nor has an open that waits.
pub fn embargo_scene(stage: &mut Stage) -> Vec<Step> {
    let cast = Cast::of(stage);
    let other = stage.next_file(cast.file);
    let before = [cast.file, other].map(|file| put_to_rest(stage, file).unwrap_or_default()).concat();
    let play = *stage.rng.pick(&EMBARGOES);
    let mut steps = [before, play(&Embargo { cast, other })].concat();
    cut(stage, &mut steps);
    steps
}

/// Who takes part, and another file, a different one where the scope has two. Client 0 is put under embargo.
struct Embargo {
    cast: Cast,
    other: u64,
}

impl Embargo {
    fn client(&self) -> u64 {
        self.cast.clients[0]
    }

    fn embargo(&self) -> Step {
        Step::Embargo { client: self.client(), file: self.cast.file }
    }

    fn embargo_of(&self, client: usize) -> Step {
        Step::Embargo { client: self.cast.clients[client], file: self.cast.file }
    }

    fn lift(&self) -> Step {
        Step::Lift { client: self.client() }
    }

    fn restart(&self) -> Step {
        Step::Restart { client: self.client() }
    }

    fn report(&self, client: usize) -> Step {
        Step::Report { client: self.cast.clients[client] }
    }

    fn open(&self, mode: Mode, client: usize) -> Step {
        self.cast.open(mode, client)
    }

    fn open_other(&self, mode: Mode, client: usize) -> Step {
        Step::Open { mode, client: self.cast.clients[client], file: self.other }
    }

    fn reply_other(&self, client: usize) -> Step {
        Step::Reply { client: self.cast.clients[client], file: self.other }
    }

    fn read_other(&self, client: usize) -> Step {
        Step::Read { client: self.cast.clients[client], file: self.other, block: 0 }
    }

    fn write_other(&self) -> Step {
        Step::Write { client: self.client(), file: self.other, block: 0, value: 9 }
    }

    /// A write by client 1.
    fn writes_1(&self, more: u64) -> Step {
        let (client, file, block) = (self.cast.clients[1], self.cast.file, self.cast.first_block());
        Step::Write { client, file, block, value: 40 + more }
    }

    /// Client 0 opens for write, sends the first of two writes to a block, and has a third one in its copy.
    fn writes_some(&self) -> Vec<Step> {
        let cast = &self.cast;
        let third = cast.write_at(cast.first_block(), 5);
        vec![cast.open(Mode::Write, 0), cast.write(0), cast.flush(0), cast.write(1), third]
    }

    /// Client 0 has both files open for write, with writes in its copies.
    fn writes_both(&self) -> Vec<Step> {
        [self.writes_some(), vec![self.open_other(Mode::Write, 0), self.write_other()]].concat()
    }

    /// Client 0 writes, client 1 waits to read, and the embargo lets it.
    fn put_aside(&self) -> Vec<Step> {
        [self.writes_some(), vec![self.open(Mode::Read, 1), self.embargo()]].concat()
    }

    /// Clients 0 and 1 read, and client 2 waits to write.
    fn two_called(&self) -> Vec<Step> {
        let read = [self.open(Mode::Read, 0), self.cast.read(0, 0), self.open(Mode::Read, 1), self.cast.read(1, 0)];
        [&read[..], &[self.open(Mode::Write, 2)]].concat()
    }

    /// Client 0 goes on with what it has: it reads, writes and reads.
    fn goes_on(&self) -> Vec<Step> {
        let cast = &self.cast;
        vec![cast.read(0, 0), cast.write_at(cast.first_block(), 8), cast.read(0, 0), cast.read(0, 1), cast.write(1)]
    }

    /// What each client then reads.
    fn reads(&self) -> Vec<Step> {
        [0, 1, 2].map(|client| [self.cast.read(client, 0), self.cast.read(client, 1)]).concat()
    }

    /// Every step of client 0 that needs the server.
    fn needs_the_server(&self) -> Vec<Step> {
        let cast = &self.cast;
        let opens = [Mode::Read, Mode::Write].map(|mode| [cast.open(mode, 0), cast.close(mode, 0)]).concat();
        let others = vec![cast.flush(0), cast.flush(1), cast.reply(0), self.report(0), self.open_other(Mode::Read, 0)];
        [opens, others].concat()
    }

    /// Client 0 opens anew and reads.
    fn anew(&self) -> Vec<Step> {
        vec![self.open(Mode::Read, 0), self.cast.reply(1), self.cast.read(0, 0), self.cast.read(0, 1)]
    }
}

/// The files are CLOSED before, unless they have too many opens.
type Play = fn(&Embargo) -> Vec<Step>;

const EMBARGOES: [Play; 26] = [
    // A writer that goes on; told, it has nothing left.
    |play| [play.put_aside(), play.goes_on(), play.reads(), vec![play.lift()], play.reads(), play.anew()].concat(),
    |play| [play.put_aside(), play.goes_on(), vec![play.lift(), play.lift()], play.cast.all_flushed()].concat(),
    // It restarts in place of being told.
    |play| [play.put_aside(), play.goes_on(), vec![play.restart(), play.lift()], play.anew(), play.reads()].concat(),
    // Every step that needs the server, before it is told and after.
    |play| [play.put_aside(), play.needs_the_server(), play.reads()].concat(),
    |play| [play.put_aside(), vec![play.lift()], play.needs_the_server(), play.reads()].concat(),
    // A last writer that has closed: it is open nowhere, and may neither read nor write.
    |play| {
        let aside = vec![play.open(Mode::Write, 1), play.embargo()];
        [play.cast.written(&[0, 1]), aside, play.goes_on(), play.reads(), vec![play.lift()], play.anew()].concat()
    },
    // A last writer with a clean block beside a dirty one, which opens anew at the same version and tries its copy in a
    // recovery.
    |play| {
        let written =
            [play.open(Mode::Write, 0), play.cast.read(0, 0), play.cast.write(1), play.cast.close(Mode::Write, 0)];
        let told = [play.open(Mode::Read, 1), play.embargo(), play.lift(), play.open(Mode::Read, 0), Step::Crash];
        [&written[..], &told, &play.reads(), &play.cast.reports()].concat()
    },
    // Again, before and after it is told: it has no call.
    |play| [play.put_aside(), vec![play.embargo(), play.lift(), play.embargo()], play.anew()].concat(),
    // Without a call.
    |play| [play.writes_some(), vec![play.embargo(), play.lift()], play.reads()].concat(),
    // One of two called, and both of them.
    |play| [play.two_called(), vec![play.embargo(), play.cast.reply(1)], play.reads()].concat(),
    |play| [play.two_called(), vec![play.cast.reply(1), play.embargo()], play.reads()].concat(),
    |play| [play.two_called(), vec![play.embargo_of(1), play.embargo()], play.reads(), play.cast.recovery()].concat(),
    // Its other file is free at once.
    |play| {
        let free = vec![play.open_other(Mode::Read, 1), play.read_other(1), play.read_other(0), play.write_other()];
        [play.writes_both(), vec![play.open(Mode::Read, 1), play.embargo()], free, play.reads()].concat()
    },
    // The last one called on two files at once, by two clients and by one.
    |play| {
        let waits = vec![play.open_other(Mode::Read, 1), play.open(Mode::Read, 2), play.embargo(), play.read_other(1)];
        [play.writes_both(), waits, play.reads()].concat()
    },
    |play| {
        let waits = vec![play.open(Mode::Write, 1), play.open_other(Mode::Read, 1), play.embargo()];
        [play.writes_both(), waits, vec![play.read_other(1), play.write_other(), play.read_other(0)]].concat()
    },
    // One that waits for another file: that open goes with its calls.
    |play| {
        let waits = [play.open(Mode::Read, 0), play.open_other(Mode::Write, 1), play.open_other(Mode::Read, 0)];
        let gone = [play.open(Mode::Write, 2), play.embargo(), play.reply_other(1), play.open_other(Mode::Read, 2)];
        [&waits[..], &gone, &play.reads()].concat()
    },
    // A reader keeps what it has read while another writes.
    |play| {
        let read = [play.open(Mode::Read, 0), play.cast.read(0, 0), play.open(Mode::Write, 1), play.embargo()];
        let written = [play.writes_1(0), play.cast.read(0, 0), play.cast.read(1, 0), play.cast.read(0, 1)];
        [&read[..], &written, &[play.lift()], &play.anew()].concat()
    },
    // Another's write, before and after one of client 0: the latest of both, and the latest not lost.
    |play| {
        let aside = vec![play.open(Mode::Write, 1), play.embargo(), play.writes_1(0)];
        let then = vec![play.open(Mode::Read, 2), play.cast.reply(1)];
        [play.writes_some(), aside, play.goes_on(), then, play.reads()].concat()
    },
    |play| {
        let aside = vec![play.open(Mode::Write, 1), play.embargo()];
        let then = vec![play.writes_1(1), Step::Restart { client: play.cast.clients[1] }, play.open(Mode::Read, 2)];
        [play.writes_some(), aside, play.goes_on(), then, play.reads()].concat()
    },
    |play| {
        let aside = vec![play.open(Mode::Write, 1), play.embargo(), play.writes_1(2)];
        let then = vec![Step::Restart { client: play.cast.clients[1] }, play.open(Mode::Read, 2)];
        [play.writes_some(), aside, play.goes_on(), then, play.reads()].concat()
    },
    // A crash: it cannot report, and the end does not wait for it.
    |play| {
        let crash = vec![Step::Crash, play.report(0)];
        let then = [play.needs_the_server(), play.goes_on(), play.cast.reports(), play.reads()].concat();
        [play.put_aside(), crash, then, vec![play.lift()], play.anew()].concat()
    },
    |play| [play.put_aside(), play.cast.recovery(), play.goes_on(), play.cast.recovery(), play.reads()].concat(),
    // Told, or restarted, in a recovery: it has reported.
    |play| {
        let crash = vec![Step::Crash, play.lift(), play.report(0), play.lift()];
        [play.put_aside(), crash, play.cast.reports(), play.reads(), play.anew()].concat()
    },
    |play| {
        let crash = vec![Step::Crash, play.restart(), play.report(0), play.lift()];
        [play.put_aside(), crash, play.cast.reports(), play.reads(), play.anew()].concat()
    },
    // A second crash takes that back; it is not under embargo any more.
    |play| {
        let crashes = vec![Step::Crash, play.lift(), Step::Crash, Step::End, play.report(0)];
        [play.put_aside(), crashes, play.cast.reports(), play.reads()].concat()
    },
    // In a recovery there is no call.
    |play| {
        let crash = vec![play.open(Mode::Read, 1), Step::Crash, play.embargo()];
        [play.writes_some(), crash, play.cast.reports(), vec![play.embargo()], play.reads()].concat()
    },
];
