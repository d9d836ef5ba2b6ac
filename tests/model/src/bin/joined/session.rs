//! One session in two parts, and the comparison of the two ways to play it.

use std::fmt;

use model::check::Difference;
use model::generate::{FileKind, closing_time, leaving_embargoes, resumed_run, step_file};
use model::images::written;
use model::{Document01, Service, replay, replay_from};

use crate::runs::Player;

pub struct Session {
    name: String,
    seed: u64,
    /// The first part as far as anything may happen, and its image if there is one.
    begun: Vec<u8>,
    image_begun: Option<Vec<u8>>,
    /// The whole first part, after which every client has closed and flushed, and its image. Some may be under embargo.
    first: Vec<u8>,
    image: Vec<u8>,
    /// The reports, the end and the second part.
    second: Vec<u8>,
    /// Whether the first part leaves no last writer: the two ways then give the same answers throughout.
    leaves_nothing: bool,
}

impl Session {
    pub fn of(seed: u64, lines: usize) -> Self {
        // None of these files ends without its LF.
        let kind = match seed % 8 {
            4 | 6 => FileKind::Space,
            seed => [FileKind::Session, FileKind::Embargo, FileKind::Hot, FileKind::Wide][seed as usize % 4],
        };
        let begun = step_file(kind, seed, lines);
        let mut service = Service::fresh();
        replay_from::<Document01>(&mut service, &begun, &mut ());
        let image_begun = written(&service).ok();
        let mut closing = closing_time(&mut service);
        if matches!(kind, FileKind::Embargo | FileKind::Space) {
            closing.extend(leaving_embargoes(&mut service, seed));
        }
        let image = written(&service).expect("no open waits, and no recovery is under way");
        let sizes = service.sizes();
        let mut entries = service.server.entries[..sizes.files].iter();
        let leaves_nothing = entries.all(|entry| entry.last_writer.read(sizes).is_none());
        let second = resumed_run(&mut service, seed, lines);
        let first = [&begun[..], &closing].concat();
        let name = format!("{} seed {seed} lines {lines}", kind.name());
        Session { name, seed, begun, image_begun, first, image, second, leaves_nothing }
    }

    /// An error is the first finding.
    pub fn compare(&self, player: &Player, compared: &mut Compared) -> Result<(), String> {
        let located = |problem: String| format!("{}: {problem}", self.name);
        self.compare_images(player).map_err(located)?;
        let joined = player.plays_from_image(&self.image, &self.second, self.seed).map_err(located)?;
        let whole = [&self.first[..], b"XX\n", &self.second].concat();
        let crashed = player.plays(&whole, self.seed).map_err(located)?;
        let (before, count) = (lines(&self.first).len() + 1, lines(&self.second).len());
        let (joined, crashed) = (Said::of(&joined, 0, count), Said::of(&crashed, before, count));
        let reads = self.compare_second(&joined, &crashed).map_err(located)?;
        compared.sessions += 1;
        compared.images += 1 + usize::from(self.image_begun.is_some());
        compared.images_refused += usize::from(self.image_begun.is_none());
        compared.reads += reads;
        compared.alike += usize::from(self.leaves_nothing);
        Ok(())
    }

    /// The images that the player writes, and its output beside them.
    fn compare_images(&self, player: &Player) -> Result<(), String> {
        for (input, expected) in [(&self.begun, self.image_begun.as_ref()), (&self.first, Some(&self.image))] {
            let (output, image) = player.plays_to_image(input, self.seed)?;
            if let Some(difference) = Difference::between(&replay::<Document01>(input, &mut ()), &output) {
                return Err(format!("the output beside the image differs: {difference:?}"));
            }
            if image.as_ref() != expected {
                return Err(format!("the image differs\n  model:  {expected:?}\n  player: {image:?}"));
            }
        }
        Ok(())
    }

    /// How many reads were accepted. They must be the same, and the versions at the end; where the first part leaves
    /// nothing behind, all of it must be.
    fn compare_second(&self, joined: &Said, crashed: &Said) -> Result<usize, String> {
        let mut reads = 0;
        for (at, line) in lines(&self.second).into_iter().enumerate() {
            let (here, there) = (joined.answers.get(at), crashed.answers.get(at));
            let is_read = line.starts_with(b"RD");
            if here.is_none() || here != there && (is_read || self.leaves_nothing) {
                let line = String::from_utf8_lossy(line);
                return Err(format!("line {} of the second part, {line}: {here:?} and {there:?}", at + 1));
            }
            reads += usize::from(is_read && here.is_some_and(|answer| answer.starts_with(" V ")));
        }
        let differ = joined.summary != crashed.summary;
        if differ && self.leaves_nothing || joined.versions() != crashed.versions() {
            return Err(format!("the summaries differ: {:?} and {:?}", joined.summary, crashed.summary));
        }
        Ok(reads)
    }
}

fn lines(text: &[u8]) -> Vec<&[u8]> {
    text.split_inclusive(|&byte| byte == b'\n').map(|line| line.strip_suffix(b"\n").unwrap_or(line)).collect()
}

/// An output from some line on: the answers without their line numbers, and the summary.
struct Said<'a> {
    answers: Vec<&'a str>,
    summary: Vec<&'a str>,
}

impl<'a> Said<'a> {
    fn of(output: &'a [u8], from: usize, count: usize) -> Self {
        let mut lines = str::from_utf8(output).unwrap_or("not text").lines().skip(from);
        let numbered = lines.by_ref().take(count).zip(from + 1..);
        let answer = |(line, number): (&'a str, usize)| line.strip_prefix(&*number.to_string()).unwrap_or("no number");
        Said { answers: numbered.map(answer).collect(), summary: lines.collect() }
    }

    /// Of each file in the summary its number and its version.
    fn versions(&self) -> Vec<(&'a str, &'a str)> {
        let fields = self.summary.iter().map(|line| line.split(' ').collect::<Vec<&str>>());
        fields.filter(|fields| fields.len() == 4).map(|fields| (fields[0], fields[2])).collect()
    }
}

/// What has been compared so far.
#[derive(Default)]
pub struct Compared {
    sessions: usize,
    images: usize,
    images_refused: usize,
    reads: usize,
    /// Sessions whose answers were compared throughout.
    alike: usize,
}

impl fmt::Display for Compared {
    fn fmt(&self, out: &mut fmt::Formatter) -> fmt::Result {
        let Compared { sessions, images, images_refused, reads, alike } = self;
        writeln!(out, "sessions {sessions}, of which {alike} alike in every answer")?;
        writeln!(out, "images written {images}, refused {images_refused}")?;
        write!(out, "accepted reads after the image {reads}")
    }
}
