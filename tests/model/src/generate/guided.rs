//! Hot and wide files: every step has an aim that is drawn by what goes on at the server, and now and then a scene is
//! played that chance would seldom bring about.

use std::collections::VecDeque;

use super::Author;
use super::aim::{Aims, aims_for, embargo_aims_for, space_aims_for};
use super::embargo::embargo_scene;
use super::restart::restart_scene;
use super::rng::Rng;
use super::scene::scene;
use super::space::space_scene;
use super::stage::{Scope, Stage};
use super::text::write_step;
use super::tide::Tide;
use crate::{Service, Settings, Step};

/// One step in so many, while the server neither recovers nor has an open that waits, begins a scene.
const SCENE: usize = 40;

/// Where clients restart, one step in so many is a restart, and so many while the server recovers or has an open that
/// waits.
const RESTART: usize = 40;
const RESTART_HALFWAY: usize = 12;

/// Where clients are put under embargo, one step in so many is about that.
const EMBARGO: usize = 5;

/// Where the store is small, one step in so many is about its places, and one scene in so many.
const SPACE: usize = 3;
const SPACE_SCENE: usize = 2;

pub struct Guided {
    stage: Stage,
    /// Whether clients mostly take turns.
    turns: bool,
    tide: Option<Tide>,
    /// The steps of a scene still to come.
    scene: VecDeque<Step>,
    /// Whether clients restart.
    restarts: bool,
    /// Whether they are put under embargo.
    embargoes: bool,
    /// Whether the store is small.
    small_store: bool,
}

impl Guided {
    pub fn hot(seed: u64, settings: Settings) -> Self {
        let mut rng = Rng::new(seed);
        let few = Scope { clients: 2 + rng.below(5), files: 1 + rng.below(2), blocks: 1 + rng.below(3) };
        let whole = Scope::whole(settings.read());
        let scope = if settings == Settings::NOT_GIVEN { few } else { Scope { files: whole.files.min(2), ..whole } };
        let tide = (seed % 8 == 7).then(|| Tide::new(&mut rng));
        Guided { tide, ..Guided::on(Stage::new(rng, settings, scope), seed) }
    }

    pub fn wide(seed: u64, settings: Settings) -> Self {
        Guided::on(Stage::new(Rng::new(!seed), settings, Scope::whole(settings.read())), seed)
    }

    /// A wide file with restarts that goes on from this service.
    pub fn from(service: Service, seed: u64) -> Self {
        let mut guided = Guided::wide(seed, service.settings).with_restarts();
        guided.stage.service = service;
        guided
    }

    fn on(stage: Stage, seed: u64) -> Self {
        let turns = seed.is_multiple_of(2);
        let scene = VecDeque::new();
        Guided { stage, turns, tide: None, scene, restarts: false, embargoes: false, small_store: false }
    }

    pub fn with_restarts(self) -> Self {
        Guided { restarts: true, ..self }
    }

    /// And with restarts.
    pub fn with_embargoes(self) -> Self {
        Guided { restarts: true, embargoes: true, ..self }
    }

    /// With restarts and embargoes.
    pub fn with_small_store(self) -> Self {
        Guided { small_store: true, ..self.with_embargoes() }
    }

    /// The next step, not yet taken.
    pub fn choose(&mut self) -> Step {
        if let Some(step) = self.scene.pop_front() {
            return step;
        }
        if let Some(step) = self.tide.as_mut().and_then(|tide| tide.step(&mut self.stage)) {
            return step;
        }
        let at_rest = !self.stage.service.server.recovering && !self.stage.any_open_waits();
        if at_rest && self.stage.rng.one_in(SCENE) {
            let steps = if self.small_store && self.stage.rng.one_in(SPACE_SCENE) {
                space_scene(&mut self.stage)
            } else if self.embargoes && !self.stage.rng.one_in(3) {
                embargo_scene(&mut self.stage)
            } else if self.restarts && self.stage.rng.one_in(2) {
                restart_scene(&mut self.stage)
            } else {
                scene(&mut self.stage)
            };
            self.scene.extend(steps);
            return self.choose();
        }
        if self.small_store && self.stage.rng.one_in(SPACE) {
            let aim = self.stage.rng.weighted(space_aims_for(&self.stage));
            return self.stage.aimed(aim);
        }
        if self.embargoes && self.stage.rng.one_in(EMBARGO) {
            let aim = self.stage.rng.weighted(embargo_aims_for(&self.stage));
            return self.stage.aimed(aim);
        }
        if self.restarts && self.stage.rng.one_in(if at_rest { RESTART } else { RESTART_HALFWAY }) {
            return self.stage.restart();
        }
        let aims: &Aims = if at_rest && self.tide.is_some() { &Tide::HIGH } else { aims_for(&self.stage, self.turns) };
        let aim = self.stage.rng.weighted(aims);
        self.stage.aimed(aim)
    }

    pub fn stage(&mut self) -> &mut Stage {
        &mut self.stage
    }
}

impl Author for Guided {
    fn line(&mut self, _offset: usize, text: &mut Vec<u8>) {
        let step = self.choose();
        self.stage.take(&step);
        write_step(&step, text);
    }
}
