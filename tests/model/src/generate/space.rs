//! Scenes of a small store (document 02, Wish 13): places are taken, moved from reserved to used, and freed.

use super::scene::{Cast, cut, put_to_rest};
use super::stage::Stage;
use crate::{Mode, Step};

/// The steps of some scene about places, for a service that neither recovers nor has an open that waits.
pub fn space_scene(stage: &mut Stage) -> Vec<Step> {
    let cast = Cast::of(stage);
    let other = stage.next_file(cast.file);
    let before = [cast.file, other].map(|file| put_to_rest(stage, file).unwrap_or_default()).concat();
    let play = *stage.rng.pick(&SPACES);
    let mut steps = [before, play(&Space { cast, other })].concat();
    cut(stage, &mut steps);
    steps
}

/// Who takes part, and another file, a different one where the scope has two. Client 0 reserves what it can.
struct Space {
    cast: Cast,
    other: u64,
}

impl Space {
    fn restart(&self, client: usize) -> Step {
        Step::Restart { client: self.cast.clients[client] }
    }

    fn report(&self, client: usize) -> Step {
        Step::Report { client: self.cast.clients[client] }
    }

    fn lift(&self) -> Step {
        Step::Lift { client: self.cast.clients[0] }
    }

    fn embargo(&self) -> Step {
        Step::Embargo { client: self.cast.clients[0], file: self.cast.file }
    }

    fn write(&self, client: usize, file: u64, block: u64) -> Step {
        Step::Write { client: self.cast.clients[client], file, block, value: 70 + block }
    }

    /// Client 1 opens the other file for write and writes each of the first blocks: as many places as are free.
    fn fills(&self) -> Vec<Step> {
        let open = Step::Open { mode: Mode::Write, client: self.cast.clients[1], file: self.other };
        let answer = Step::Reply { client: self.cast.clients[0], file: self.other };
        let writes = (0..4).map(|block| self.write(1, self.other, block));
        [open, answer].into_iter().chain(writes).collect()
    }

    /// The blocks once more, by client 0.
    fn again(&self) -> Vec<Step> {
        (0..3).map(|block| self.write(0, self.cast.file, block)).collect()
    }

    /// Client 1 waits to read what client 0 writes, and client 0 is put under embargo.
    fn put_aside(&self) -> Vec<Step> {
        [self.cast.all_written(), vec![self.cast.open(Mode::Read, 1), self.embargo()]].concat()
    }
}

/// The files are CLOSED before, unless they have too many opens.
type Play = fn(&Space) -> Vec<Step>;

const SPACES: [Play; 16] = [
    // All that a restart loses is free again, and another takes it.
    |play| [play.cast.all_written(), vec![play.restart(0)], play.fills()].concat(),
    |play| [play.fills(), play.cast.all_written(), vec![play.restart(1)], play.again()].concat(),
    // A flush moves one place, and a restart then frees the others.
    |play| [play.cast.all_written(), vec![play.cast.flush(0), play.restart(0)], play.fills()].concat(),
    // A block that is used keeps its place when it is written anew and lost.
    |play| {
        let anew = vec![play.cast.flush(0), play.cast.write(0), play.restart(0)];
        [play.cast.all_written(), anew, play.fills(), play.again()].concat()
    },
    // An answer moves all of them.
    |play| {
        let shared = vec![play.cast.open(Mode::Read, 1), play.cast.reply(0), play.restart(0)];
        [play.cast.all_written(), shared, play.fills()].concat()
    },
    // Writes without permission, of blocks used and not.
    |play| {
        let shared = [play.cast.open(Mode::Write, 0), play.cast.open(Mode::Read, 1), play.cast.reply(0)];
        [shared.to_vec(), play.again(), vec![play.restart(0)], play.fills()].concat()
    },
    // An embargo frees at once; what client 0 then writes takes nothing, and the lift frees nothing more.
    |play| [play.put_aside(), play.fills(), play.again(), vec![play.lift()], play.fills()].concat(),
    |play| [play.put_aside(), play.again(), vec![play.restart(0)], play.fills(), play.again()].concat(),
    |play| {
        let flushed = vec![play.cast.open(Mode::Read, 1), play.cast.flush(0), play.embargo()];
        [play.cast.all_written(), flushed, play.again(), vec![play.lift()], play.fills()].concat()
    },
    // A crash: what the reports have not taken yet is free, but nobody may take it.
    |play| {
        let crash = vec![Step::Crash, play.cast.write(0), play.cast.write(1), play.report(0), play.cast.write(0)];
        [play.cast.all_written(), crash, play.cast.reports(), play.fills()].concat()
    },
    |play| [play.cast.written(&[0]), play.cast.recovery(), play.fills(), play.again()].concat(),
    // A restart in a recovery, before the report and after it, and a second crash.
    |play| {
        let crash = vec![Step::Crash, play.restart(0)];
        [play.cast.all_written(), crash, play.cast.reports(), play.fills()].concat()
    },
    |play| {
        let crash = vec![Step::Crash, play.report(0), play.restart(0), play.restart(0)];
        [play.cast.all_written(), crash, play.cast.reports(), play.fills()].concat()
    },
    |play| {
        let crashes = vec![Step::Crash, play.report(0), Step::Crash, play.report(0), play.report(1)];
        [play.cast.all_written(), crashes, play.cast.reports(), play.fills()].concat()
    },
    // A recovery with a client under embargo, which goes on writing what it has.
    |play| {
        let crash = vec![Step::Crash, play.report(0)];
        [play.put_aside(), crash, play.again(), play.cast.reports(), vec![play.lift()], play.fills()].concat()
    },
    // A first write in a recovery, and of one that has the file open and nothing written.
    |play| {
        let crash = vec![play.cast.open(Mode::Write, 0), play.cast.write(0), Step::Crash];
        [crash, play.again(), play.cast.reports(), play.again()].concat()
    },
];
