//! Faults of what is told of opens: grants, waits and answers.

use model::explain::{CopyAtGrant, Told};
use model::{Callbacks, ClientSet, Kind, Mode, State};

use crate::fault::{Lines, faults};

faults! {
    // The copy at a grant.
    kept_told_for_dropped: Grant(|_, granted| {
        if let CopyAtGrant::Dropped(version) = granted.copy {
            granted.copy = CopyAtGrant::Kept(version);
        }
    });
    dropped_told_for_kept: Grant(|_, granted| {
        if let CopyAtGrant::Kept(version) = granted.copy {
            granted.copy = CopyAtGrant::Dropped(version);
        }
    });
    kept_told_of_a_latest_copy_without_permission: Grant(|_, granted| {
        if granted.copy == CopyAtGrant::Dropped(granted.version) {
            granted.copy = CopyAtGrant::Kept(granted.version);
        }
    });
    kept_told_of_a_previous_copy_at_a_read_open: Grant(|_, granted| {
        let previous = granted.version - 1;
        if granted.copy == CopyAtGrant::Dropped(previous) && granted.opening.mode == Mode::Read && granted.may_cache {
            granted.copy = CopyAtGrant::Kept(previous);
        }
    });
    kept_told_of_a_previous_copy_without_permission: Grant(|_, granted| {
        let previous = granted.version - 1;
        if granted.copy == CopyAtGrant::Dropped(previous) && granted.opening.mode == Mode::Write {
            granted.copy = CopyAtGrant::Kept(previous);
        }
    });
    no_copy_told_for_a_dropped_one: Grant(|_, granted| {
        if matches!(granted.copy, CopyAtGrant::Dropped(_)) {
            granted.copy = CopyAtGrant::None;
        }
    });
    no_copy_told_without_permission: Grant(|_, granted| {
        if !granted.may_cache {
            granted.copy = CopyAtGrant::None;
        }
    });
    no_copy_told_where_no_block_is_held: Grant(|lines, granted| {
        let copies = &lines.service.clients[granted.opening.client].files[granted.opening.file].copies;
        if matches!(granted.copy, CopyAtGrant::Kept(_)) && !copies.held.contains(&true) {
            granted.copy = CopyAtGrant::None;
        }
    });
    copy_of_version_0_told_for_none: Grant(|_, granted| {
        if granted.copy == CopyAtGrant::None {
            granted.copy = CopyAtGrant::Dropped(0);
        }
    });
    copy_told_of_the_new_version: Grant(|_, granted| {
        match &mut granted.copy {
            CopyAtGrant::Kept(version) | CopyAtGrant::Dropped(version) => *version = granted.version,
            CopyAtGrant::None => {}
        }
    });
    // The rest of a grant.
    previous_version_told: Grant(|_, granted| granted.version -= 1);
    permission_told_with_every_grant: Grant(|_, granted| granted.may_cache = true);
    grant_told_for_read: Grant(|_, granted| granted.opening.mode = Mode::Read);
    grant_after_a_wait_told_for_read: Line(|_, told| {
        if let Told::AnsweredLast { granted, .. } = told {
            granted.opening.mode = Mode::Read;
        }
    });
    answerer_told_as_the_opener: Line(|_, told| {
        if let Told::AnsweredLast { client, granted, .. } = told {
            granted.opening.client = *client;
        }
    });
    opener_told_as_the_answerer: Line(|_, told| {
        if let Told::AnsweredLast { client, granted, .. } = told {
            *client = granted.opening.client;
        }
    });

    // Waits.
    state_told_without_the_last_writer: Line(|_, told| on_state(told, |state| match state {
        State::ClosedDirty => State::Closed,
        State::OneRdrDirty => State::OneReader,
        state => state,
    }));
    state_told_without_the_permissions: Line(|_, told| on_state(told, |state| match state {
        State::WriteShared => State::MultReaders,
        state => state,
    }));
    mult_readers_told_for_one_reader: Line(|_, told| on_state(told, |state| match state {
        State::OneReader => State::MultReaders,
        state => state,
    }));
    state_told_as_if_the_answers_were_in: Line(|_, told| on_state(told, |state| match state {
        State::OneWriter | State::OneReader | State::MultReaders => State::WriteShared,
        state => state,
    }));
    write_back_told_for_both: Line(|_, told| on_kind(told, Kind::Both, Kind::WriteBack));
    drop_told_for_both: Line(|_, told| on_kind(told, Kind::Both, Kind::Invalidate));
    both_told_for_write_back: Line(|_, told| on_kind(told, Kind::WriteBack, Kind::Both));
    both_told_for_drop: Line(|_, told| on_kind(told, Kind::Invalidate, Kind::Both));
    called_station_missing: Line(|_, told| {
        if let Told::Waits { callbacks, .. } = told {
            let called = without_last(callbacks.clients());
            let kind = |client: usize| if called.contains(client) { callbacks.0[client] } else { 0 };
            *callbacks = Callbacks(std::array::from_fn(kind));
        }
    });
    wait_told_for_read: Line(|_, told| {
        if let Told::Waits { opening, .. } = told {
            opening.mode = Mode::Read;
        }
    });

    // Answers.
    answered_station_still_to_answer: Line(|_, told| {
        if let Told::Answered { client, still, .. } = told {
            *still = still.with(*client);
        }
    });
    station_missing_in_still_to_answer: Line(|_, told| {
        if let Told::Answered { still, .. } = told {
            *still = without_last(*still);
        }
    });
    called_stations_still_to_answer: Line(|lines, told| {
        if let Told::Answered { file, still, .. } = told && let Some(callbacks) = latest_wait(lines, *file) {
            *still = callbacks.clients();
        }
    });
    no_blocks_told: Line(|_, told| {
        if let Told::Answered { sent, .. } | Told::AnsweredLast { sent, .. } = told {
            *sent = 0;
        }
    });
    still_to_answer_told_in_place_of_the_grant: Line(|_, told| {
        if let Told::AnsweredLast { client, sent, granted } = *told {
            *told = Told::Answered { client, file: granted.opening.file, sent, still: ClientSet::NONE };
        }
    });
    close_told_for_read: Line(|_, told| {
        if let Told::Closed(opening) = told {
            opening.mode = Mode::Read;
        }
    });
}

fn on_state(told: &mut Told, change: impl Fn(State) -> State) {
    if let Told::Waits { state, .. } = told {
        *state = change(*state);
    }
}

/// Each callback of the one kind is told as one of the other.
fn on_kind(told: &mut Told, right: Kind, wrong: Kind) {
    if let Told::Waits { callbacks: Callbacks(kinds), .. } = told {
        kinds.iter_mut().filter(|kind| **kind == right as u8).for_each(|kind| *kind = wrong as u8);
    }
}

/// These but for the last.
pub fn without_last(clients: ClientSet) -> ClientSet {
    clients.members().last().map_or(clients, |last| clients.without(last))
}

/// The callbacks of the latest open of this file that had to wait.
pub fn latest_wait(lines: &Lines, of: usize) -> Option<Callbacks> {
    lines.before().find_map(|(_, line)| match line.told {
        Told::Waits { opening, callbacks, .. } if opening.file == of => Some(callbacks),
        _ => None,
    })
}
