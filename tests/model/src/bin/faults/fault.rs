//! What a fault is, and how one is written: a rule of the model replaced, or the text changed on its way in or out.

use model::check::Witness;
use model::{Document01, Service, replay_from};

pub struct Fault {
    pub name: &'static str,
    pub wrong: Wrong,
    /// Why no step file can show this fault, if none can.
    pub unseen: Option<&'static str>,
}

pub enum Wrong {
    /// The rules; this plays a step file by them, from any service.
    Rules(fn(&mut Service, &[u8], &mut dyn Witness) -> Vec<u8>),
    /// The text as it is taken, played by the right rules.
    Text(fn(&[u8]) -> Vec<u8>),
    /// What is said of the text, played by the right rules.
    Said(fn(&[u8]) -> Vec<u8>),
}

impl Fault {
    /// Plays a step file wrongly, from this service and with this witness.
    pub fn play_from(&self, service: &mut Service, input: &[u8], witness: &mut dyn Witness) -> Vec<u8> {
        match self.wrong {
            Wrong::Rules(play) => play(service, input, witness),
            Wrong::Text(taken) => replay_from::<Document01>(service, &taken(input), witness),
            Wrong::Said(said) => said(&replay_from::<Document01>(service, input, witness)),
        }
    }
}

/// Each fault is a set of rules with some of document 01's replaced.
macro_rules! rule_faults {
    ($($(#[$why:meta])* $name:ident $(($unseen:literal))? { $($rules:item)* })*) => {
        $(
            $(#[$why])*
            #[allow(non_camel_case_types)]
            struct $name;
            impl model::Rules for $name { $($rules)* }
        )*
        pub const FAULTS: &[$crate::fault::Fault] = &[$($crate::fault::Fault {
            name: stringify!($name),
            wrong: $crate::fault::Wrong::Rules(model::replay_from::<$name>),
            unseen: $crate::fault::unseen!($($unseen)?),
        }),*];
    };
}

macro_rules! unseen {
    () => {
        None
    };
    ($reason:literal) => {
        Some($reason)
    };
}

pub(crate) use {rule_faults, unseen};
