//! Scenes: moves that chance would seldom bring about, each played out on one file.

use super::stage::Stage;
use crate::{ClientFile, Mode, Step};

/// Of so many scenes, one is the broken-off invalidation.
const BROKEN_OFF: usize = 3;

/// Of so many others, one is of what an answer sends; the rest are of what is left behind.
const SENT_BACK: usize = 4;

/// One scene in so many is broken off somewhere.
const CUT: usize = 4;

/// A file with more opens than that is not closed for a scene.
const MOST_OPENS: usize = 8;

/// The steps of some scene without a restart or an embargo, for a service that neither recovers nor has an open that
/// waits.
pub fn scene(stage: &mut Stage) -> Vec<Step> {
    let cast = Cast::of(stage);
    let before = put_to_rest(stage, cast.file);
    let mut steps = match before {
        Some(before) if !stage.rng.one_in(BROKEN_OFF) => {
            let plays: &[Play] = if stage.rng.one_in(SENT_BACK) { &SENT } else { &BEHIND };
            let play = *stage.rng.pick(plays);
            [before, play(&cast)].concat()
        }
        _ => broken_off_invalidation(&cast, stage.rng.one_in(3)),
    };
    cut(stage, &mut steps);
    steps
}

/// Breaks a scene off now and then.
pub fn cut(stage: &mut Stage, steps: &mut Vec<Step>) {
    if stage.rng.one_in(CUT) {
        steps.truncate(1 + stage.rng.below(steps.len()));
    }
}

/// Closes and flushes after which nobody has the file open and nothing of it is dirty; none if it has too many opens. A
/// client under embargo is told of it instead.
pub fn put_to_rest(stage: &Stage, file: u64) -> Option<Vec<Step>> {
    let sizes = stage.sizes();
    let own = |client: usize| &stage.service.clients[client].files[file as usize];
    let opens = |own: &ClientFile| usize::from(own.record.readers) + usize::from(own.record.writers);
    if (0..sizes.clients).map(|client| opens(own(client))).sum::<usize>() > MOST_OPENS {
        return None;
    }
    let steps = (0..sizes.clients).flat_map(|client| {
        let (record, dirty, embargoed) =
            (own(client).record, own(client).copies.dirty, stage.service.server.embargoed.contains(client));
        let has_some = record.is_open() || own(client).copies.any_dirty(sizes);
        let client = client as u64;
        if embargoed {
            return if has_some { vec![Step::Lift { client }] } else { vec![] };
        }
        let close = |mode| vec![Step::Close { mode, client, file }; record.count(mode).into()];
        let dirty_blocks = (0..sizes.blocks).filter(|&block| dirty[block]);
        let flushes = dirty_blocks.map(|block| Step::Flush { client, file, block: block as u64 }).collect();
        [close(Mode::Read), close(Mode::Write), flushes].concat()
    });
    Some(steps.collect())
}

/// Who takes part, and where. Clients and blocks are different ones where the scope has so many.
pub struct Cast {
    pub clients: [u64; 3],
    pub file: u64,
    blocks: [u64; 2],
    /// All blocks of the scope.
    all_blocks: u64,
    value: u64,
    /// All clients, in the order in which they report.
    reporters: Vec<u64>,
}

impl Cast {
    pub fn of(stage: &mut Stage) -> Self {
        let (clients, file, blocks, value) =
            (stage.some_clients(), stage.some_file(), stage.some_blocks(), stage.value());
        let all = stage.sizes().clients;
        let turn = stage.rng.below(all);
        let reporters = (0..all).map(|client| ((client + turn) % all) as u64).collect();
        Cast { clients, file, blocks, all_blocks: stage.blocks_in_scope(), value, reporters }
    }

    pub fn open(&self, mode: Mode, client: usize) -> Step {
        Step::Open { mode, client: self.clients[client], file: self.file }
    }

    pub fn close(&self, mode: Mode, client: usize) -> Step {
        Step::Close { mode, client: self.clients[client], file: self.file }
    }

    pub fn reply(&self, client: usize) -> Step {
        Step::Reply { client: self.clients[client], file: self.file }
    }

    pub fn read(&self, client: usize, block: usize) -> Step {
        Step::Read { client: self.clients[client], file: self.file, block: self.blocks[block] }
    }

    pub fn write(&self, block: usize) -> Step {
        self.write_at(self.blocks[block], block as u64)
    }

    pub fn first_block(&self) -> u64 {
        self.blocks[0]
    }

    pub fn write_at(&self, block: u64, more: u64) -> Step {
        Step::Write { client: self.clients[0], file: self.file, block, value: self.value.wrapping_add(more) }
    }

    /// Client 0 opens for write and writes every block.
    pub fn all_written(&self) -> Vec<Step> {
        let writes = (0..self.all_blocks).map(|block| self.write_at(block, block));
        [self.open(Mode::Write, 0)].into_iter().chain(writes).collect()
    }

    /// Client 0 flushes every block.
    pub fn all_flushed(&self) -> Vec<Step> {
        (0..self.all_blocks).map(|block| Step::Flush { client: self.clients[0], file: self.file, block }).collect()
    }

    pub fn flush(&self, block: usize) -> Step {
        Step::Flush { client: self.clients[0], file: self.file, block: self.blocks[block] }
    }

    /// All reports and the end.
    pub fn reports(&self) -> Vec<Step> {
        let reports = self.reporters.iter().map(|&client| Step::Report { client });
        reports.chain([Step::End]).collect()
    }

    pub fn recovery(&self) -> Vec<Step> {
        [vec![Step::Crash], self.reports()].concat()
    }

    /// Client 0 opens for write, writes these blocks and closes.
    pub fn written(&self, blocks: &[usize]) -> Vec<Step> {
        let writes = blocks.iter().map(|&block| self.write(block));
        [self.open(Mode::Write, 0)].into_iter().chain(writes).chain([self.close(Mode::Write, 0)]).collect()
    }

    /// Client 1 opens for read: client 0 answers if it is called, else it is refused.
    pub fn next_reader(&self) -> Vec<Step> {
        vec![self.open(Mode::Read, 1), self.reply(0), self.read(1, 0), self.read(1, 1)]
    }
}

/// The file is CLOSED before.
type Play = fn(&Cast) -> Vec<Step>;

/// What client 0's answer sends (document 02, Wish 5).
const SENT: [Play; 4] = [
    // Every block, by a client that has closed, by a writer, and by one that has flushed some.
    |cast| [cast.all_written(), vec![cast.close(Mode::Write, 0)], cast.next_reader()].concat(),
    |cast| [cast.all_written(), cast.next_reader()].concat(),
    |cast| {
        let called = [cast.open(Mode::Write, 1), cast.flush(0), cast.flush(1), cast.write(1), cast.reply(0)];
        [cast.all_written(), called.to_vec(), vec![cast.read(1, 0), cast.read(1, 1)]].concat()
    },
    // A block that is held but clean beside a dirty one.
    |cast| {
        let held = [cast.open(Mode::Write, 0), cast.read(0, 0), cast.write(1), cast.close(Mode::Write, 0)];
        [held.to_vec(), cast.next_reader()].concat()
    },
];

/// What client 0 leaves behind when it closes and flushes (document 02, Wish 4), and what client 1 then finds.
const BEHIND: [Play; 17] = [
    // A close with nothing written, by a client that has read, and by one that goes on reading.
    |cast| [vec![cast.open(Mode::Write, 0), cast.read(0, 0), cast.close(Mode::Write, 0)], cast.next_reader()].concat(),
    |cast| {
        let left = [cast.open(Mode::Read, 0), cast.open(Mode::Write, 0), cast.close(Mode::Write, 0)];
        [&left[..], &[cast.open(Mode::Write, 1), cast.reply(0)]].concat()
    },
    |cast| [cast.written(&[]), cast.recovery(), cast.next_reader()].concat(),
    // A close after all was flushed, after one of two blocks was, and after a block was written anew.
    |cast| {
        let flushed = [cast.open(Mode::Write, 0), cast.write(0), cast.flush(0), cast.close(Mode::Write, 0)];
        [flushed.to_vec(), cast.next_reader()].concat()
    },
    |cast| {
        let open = [cast.open(Mode::Write, 0), cast.write(0), cast.write(1), cast.flush(0)];
        [open.to_vec(), vec![cast.close(Mode::Write, 0)], cast.next_reader()].concat()
    },
    |cast| {
        let open = [cast.open(Mode::Write, 0), cast.write(0), cast.flush(0), cast.write(0)];
        [open.to_vec(), vec![cast.close(Mode::Write, 0)], cast.next_reader()].concat()
    },
    // Of two write opens one is closed before the flush, one after it.
    |cast| {
        let open = [cast.open(Mode::Write, 0), cast.open(Mode::Write, 0), cast.write(1), cast.close(Mode::Write, 0)];
        [open.to_vec(), vec![cast.flush(1), cast.close(Mode::Write, 0)], cast.next_reader()].concat()
    },
    // A block that was dirty before the last write open.
    |cast| [cast.written(&[1]), cast.written(&[]), cast.next_reader()].concat(),
    // Flushes by the last writer: of its only block, of one of two, and of both.
    |cast| [cast.written(&[0]), vec![cast.flush(0)], cast.next_reader()].concat(),
    |cast| [cast.written(&[0, 1]), vec![cast.flush(1)], cast.next_reader()].concat(),
    |cast| [cast.written(&[0, 1]), vec![cast.flush(0), cast.flush(1)], cast.next_reader()].concat(),
    // The last writer reads, and then flushes: the next writer invalidates it.
    |cast| {
        let read = [cast.open(Mode::Read, 0), cast.flush(0), cast.open(Mode::Write, 1), cast.reply(0)];
        [cast.written(&[0]), read.to_vec()].concat()
    },
    // A flush while the last writer is called, of its last dirty block and of one of two; then the answer.
    |cast| {
        let called = [cast.open(Mode::Read, 1), cast.flush(0), cast.reply(0), cast.read(1, 0), cast.read(1, 1)];
        [cast.written(&[0]), called.to_vec()].concat()
    },
    |cast| {
        let called = [cast.open(Mode::Write, 1), cast.flush(1), cast.reply(0), cast.read(1, 0), cast.read(1, 1)];
        [cast.written(&[0, 1]), called.to_vec()].concat()
    },
    // A crash after the last flush; between that flush and the answer; and while a writer goes on writing.
    |cast| [cast.written(&[0]), vec![cast.flush(0)], cast.recovery(), cast.next_reader()].concat(),
    |cast| {
        let called = vec![cast.open(Mode::Read, 1), cast.flush(0)];
        [cast.written(&[0]), called, cast.recovery(), vec![cast.reply(0)], cast.next_reader()].concat()
    },
    |cast| {
        let writes_on = vec![cast.open(Mode::Write, 0), Step::Crash, cast.write(1)];
        [writes_on, cast.reports(), vec![cast.close(Mode::Write, 0)], cast.next_reader()].concat()
    },
];

/// Two readers are called, one replies, the server crashes and recovers. Sometimes the one that replied then opens anew
/// and tries its copy in another recovery.
fn broken_off_invalidation(cast: &Cast, tried: bool) -> Vec<Step> {
    let mut steps = vec![
        cast.open(Mode::Read, 0),
        cast.read(0, 0),
        cast.open(Mode::Read, 1),
        cast.open(Mode::Write, 2),
        cast.reply(0),
    ];
    steps.extend(cast.recovery());
    if tried {
        steps.extend([cast.close(Mode::Read, 0), cast.open(Mode::Read, 0), Step::Crash, cast.read(0, 0)]);
    }
    steps
}
