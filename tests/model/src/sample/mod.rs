//! The files that are explained and counted: those of the differential run, and runs that go on from an image.

mod options;
mod program;

use crate::check::Cuts;
use crate::generate::{
    FileKind, closing_time, embargoed_run, leaving_embargoes, restarted_run, resumed_run, step_file,
};
use crate::images::written;
use crate::{Document01, Service, explain, play_on, replay, replay_from, traffic};

pub use options::{KINDS, Options};
pub use program::Program;

#[derive(Clone, Copy, PartialEq, Eq, Debug)]
pub enum Kind {
    Fresh(FileKind),
    /// The run begins with an image.
    Resumed,
    /// The same, and clients restart.
    ResumedRestart,
    /// The same, and clients are under embargo, some of them by the image.
    ResumedEmbargo,
}

impl Kind {
    pub const ALL: [Kind; 10] = [
        Kind::Fresh(FileKind::Hot),
        Kind::Fresh(FileKind::Wide),
        Kind::Fresh(FileKind::Malformed),
        Kind::Fresh(FileKind::Session),
        Kind::Fresh(FileKind::Restart),
        Kind::Fresh(FileKind::Embargo),
        Kind::Fresh(FileKind::Space),
        Kind::Resumed,
        Kind::ResumedRestart,
        Kind::ResumedEmbargo,
    ];

    pub fn name(self) -> &'static str {
        match self {
            Kind::Fresh(kind) => kind.name(),
            Kind::Resumed => "resumed",
            Kind::ResumedRestart => "resumed-restart",
            Kind::ResumedEmbargo => "resumed-embargo",
        }
    }

    pub fn named(name: &str) -> Option<Self> {
        Kind::ALL.into_iter().find(|kind| kind.name() == name)
    }
}

/// A step file, and the image with which the run begins, if it begins with one.
#[derive(Clone)]
pub struct Sample {
    pub name: String,
    pub seed: u64,
    pub input: Vec<u8>,
    pub image: Option<Vec<u8>>,
}

impl Sample {
    pub fn of(kind: Kind, seed: u64, lines: usize) -> Self {
        let name = format!("{} seed {seed} lines {lines}", kind.name());
        match kind {
            Kind::Fresh(kind) => Sample { name, seed, input: step_file(kind, seed, lines), image: None },
            Kind::Resumed => Sample::resumed(name, seed, lines, |_, _| vec![], resumed_run),
            Kind::ResumedRestart => Sample::resumed(name, seed, lines, |_, _| vec![], restarted_run),
            Kind::ResumedEmbargo => Sample::resumed(name, seed, lines, leaving_embargoes, embargoed_run),
        }
    }

    /// The image that a session, hot, wide or space file leaves once every client has closed and flushed and this is done, and
    /// the next run.
    fn resumed(
        name: String,
        seed: u64,
        lines: usize,
        leave: fn(&mut Service, u64) -> Vec<u8>,
        run: fn(&mut Service, u64, usize) -> Vec<u8>,
    ) -> Self {
        let kind = [FileKind::Session, FileKind::Hot, FileKind::Wide, FileKind::Space][seed as usize % 4];
        let mut service = Service::fresh();
        replay_from::<Document01>(&mut service, &step_file(kind, seed, lines), &mut ());
        closing_time(&mut service);
        leave(&mut service, seed);
        let image = written(&service).expect("no open waits, and no recovery is under way");
        let input = run(&mut service, seed, lines);
        Sample { name, seed, input, image: Some(image) }
    }

    /// The file cut short, so that the picture shows the service halfway: as the differential run does it, and of a
    /// resumed run in its recovery.
    pub fn cut_short(&self) -> Vec<Sample> {
        let inputs = match self.image {
            None => {
                let mut cuts = Cuts::default();
                replay::<Document01>(&self.input, &mut cuts);
                cuts.of(&self.input).into_iter().map(<[u8]>::to_vec).collect()
            }
            Some(_) => vec![self.input.split_inclusive(|&byte| byte == b'\n').take(3).flatten().copied().collect()],
        };
        let name = format!("{} cut short", self.name);
        let cut = |input| Sample { name: name.clone(), seed: self.seed, input, image: self.image.clone() };
        inputs.into_iter().map(cut).collect()
    }

    /// What the model's explainer says.
    pub fn explained(&self) -> Vec<u8> {
        self.explained_with(&mut ())
    }

    pub fn explained_with(&self, distortion: &mut dyn explain::Distortion) -> Vec<u8> {
        explain::distorted(self.service(), self.image.is_some(), &self.input, distortion)
    }

    /// The traffic of the run, by the model.
    pub fn table(&self) -> traffic::Table {
        traffic::table_from(self.service(), self.image.is_some(), &self.input)
    }

    /// The same as the model's counter prints it.
    pub fn counted(&self) -> Vec<u8> {
        self.counted_with(&mut ())
    }

    pub fn counted_with(&self, distortion: &mut dyn traffic::Distortion) -> Vec<u8> {
        traffic::distorted(self.service(), self.image.is_some(), &self.input, distortion)
    }

    /// What the model's player says.
    pub fn played(&self) -> Vec<u8> {
        let mut output = Vec::new();
        play_on::<Document01>(self.service(), self.image.is_some(), &self.input[..], &mut output)
            .expect("a vector takes every byte");
        output
    }

    fn service(&self) -> Service {
        let resumed = |image: &Vec<u8>| Service::resumed(image).expect("the model wrote the image");
        self.image.as_ref().map_or_else(Service::fresh, resumed)
    }
}
