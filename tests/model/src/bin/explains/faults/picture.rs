//! Faults of the picture at the end.

use model::explain::{ClientPicture, FilePicture, Picture};
use model::{ClientSet, Refusal, State};

use super::opens::without_last;
use crate::fault::faults;

faults! {
    // The server.
    recovery_not_told: Picture(|_, picture| picture.recovering = None);
    picture_with_reported_stations_still_to_report: Picture(|service, picture| {
        picture.recovering = picture.recovering.map(|to_report| service.sizes().client_set().minus(to_report));
    });
    picture_with_all_stations_still_to_report: Picture(|service, picture| {
        picture.recovering = picture.recovering.map(|_| service.sizes().client_set());
    });
    nobody_to_report_told_as_running: Picture(|_, picture| {
        picture.recovering = picture.recovering.filter(|to_report| *to_report != ClientSet::NONE);
    });

    // The places.
    free_told_without_the_reserved: Picture(|_, picture| picture.free = picture.places.store - picture.places.used);
    free_told_as_the_store: Picture(|_, picture| picture.free = picture.places.store);
    used_blocks_not_told: Picture(|_, picture| picture.places.used = 0);
    reserved_blocks_not_told: Picture(|_, picture| picture.places.reserved = 0);
    stations_that_reserve_not_told: Picture(|_, picture| picture.places.by = ClientSet::NONE);
    embargoed_stations_told_to_reserve: Picture(|service, picture| {
        let embargoed = service.server.embargoed.and(service.sizes().client_set());
        let dirty = ClientSet::of(|client| (0..service.sizes().files).any(|file| service.any_dirty(client, file)));
        picture.places.by = picture.places.by.or(embargoed.and(dirty));
    });
    every_station_with_a_dirty_block_told_to_reserve: Picture(|service, picture| {
        let sizes = service.sizes();
        let dirty = ClientSet::of(|client| (0..sizes.files).any(|file| service.any_dirty(client, file)));
        picture.places.by = dirty.and(sizes.client_set()).minus(service.server.embargoed);
    });
    store_told_as_512: Picture(|_, picture| picture.places.store = 512);

    // The files.
    last_file_missing: Picture(|_, picture| drop(picture.files.pop()));
    file_with_a_copy_alone_missing: Picture(|_, picture| {
        picture.files.retain(|file| file.state != State::Closed || file.version != 1);
    });
    closed_file_missing: Picture(|_, picture| picture.files.retain(|file| file.state != State::Closed));
    file_that_no_station_has_missing: Picture(|_, picture| picture.files.retain(|file| !file.clients.is_empty()));
    files_past_32_missing: Picture(|_, picture| picture.files.retain(|file| file.file < 32));
    files_descend: Picture(|_, picture| picture.files.reverse());
    previous_version_of_the_file_told: Picture(|_, picture| {
        picture.files.iter_mut().for_each(|file| file.version = (file.version - 1).max(1));
    });
    last_writer_missing: Picture(|_, picture| picture.files.iter_mut().for_each(|file| file.last_writer = None));
    last_writer_told_as_the_writer: Picture(|_, picture| picture.files.iter_mut().for_each(|file| {
        let writer = file.clients.iter().find(|client| client.record.writers > 0);
        file.last_writer = file.last_writer.or(writer.map(|client| client.client));
    }));
    state_by_the_stations_records: Picture(|service, picture| {
        let sizes = service.sizes();
        for file in &mut picture.files {
            let mut entry = service.server.entries[file.file].clone();
            for client in 0..sizes.clients {
                entry.records[client] = service.clients[client].files[file.file].record;
            }
            file.state = State::of(sizes, &entry);
        }
    });

    // The stations.
    station_that_closed_missing: Picture(|_, picture| {
        picture.files.iter_mut().for_each(|file| file.clients.retain(|client| client.record.is_open()));
    });
    station_without_a_block_missing: Picture(|_, picture| {
        picture.files.iter_mut().for_each(|file| file.clients.retain(|client| !client.held.is_empty()));
    });
    last_station_missing: Picture(|_, picture| picture.files.iter_mut().for_each(|file| drop(file.clients.pop())));
    stations_descend: Picture(|_, picture| picture.files.iter_mut().for_each(|file| file.clients.reverse()));
    counts_by_the_servers_record: Picture(|service, picture| on_clients(picture, |file, client| {
        let record = service.server.entries[file].records[client.client];
        (client.record.readers, client.record.writers) = (record.readers, record.writers);
    }));
    permission_by_the_servers_record: Picture(|service, picture| on_clients(picture, |file, client| {
        client.record.may_cache = service.server.entries[file].records[client.client].may_cache;
    }));
    permission_told_of_a_station_that_closed: Picture(|_, picture| on_clients(picture, |_, client| {
        client.record.may_cache |= !client.record.is_open();
    }));
    read_and_write_opens_swapped: Picture(|_, picture| on_clients(picture, |_, client| {
        (client.record.readers, client.record.writers) = (client.record.writers, client.record.readers);
    }));
    open_told_once: Picture(|_, picture| on_clients(picture, |_, client| {
        client.record.readers = client.record.readers.min(1);
    }));
    first_held_block_missing: Picture(|_, picture| on_clients(picture, |_, client| {
        client.held.drain(..client.held.len().min(1));
    }));
    last_held_block_missing: Picture(|_, picture| on_clients(picture, |_, client| {
        client.held.pop();
    }));
    dirty_block_missing_among_the_held: Picture(|_, picture| on_clients(picture, |_, client| {
        client.held.retain(|block| !client.dirty.contains(block));
    }));
    held_blocks_told_as_dirty: Picture(|_, picture| on_clients(picture, |_, client| {
        client.dirty.clone_from(&client.held);
    }));
    dirty_block_missing: Picture(|_, picture| on_clients(picture, |_, client| {
        client.dirty.pop();
    }));
    four_blocks_told_at_most: Picture(|_, picture| on_clients(picture, |_, client| {
        client.held.retain(|block| *block < 4);
    }));

    // The open that waits.
    waiting_open_missing: Picture(|_, picture| picture.files.iter_mut().for_each(|file| file.waiting = None));
    picture_without_a_station_still_to_answer: Picture(|_, picture| {
        for waiting in picture.files.iter_mut().filter_map(|file| file.waiting.as_mut()) {
            waiting.still = without_last(waiting.still);
        }
    });
    picture_with_a_wait_a_line_late: Picture(|_, picture| {
        picture.files.iter_mut().filter_map(|file| file.waiting.as_mut()).for_each(|waiting| waiting.since += 1);
    });

    // The refusals.
    refusal_counted_under_the_next_number: Picture(|_, picture| {
        picture.refusals.swap(Refusal::NoCallback.number(), Refusal::NotOpen.number());
    });
    lines_that_are_no_steps_not_counted: Picture(|_, picture| picture.refusals[Refusal::NotAStep.number()] = 0);
    refused_settings_not_counted: Picture(|_, picture| picture.refusals[Refusal::SettingOutOfRange.number()] = 0);
    each_refusal_counted_once: Picture(|_, picture| {
        picture.refusals.iter_mut().for_each(|times| *times = (*times).min(1));
    });
    refusals_counted_to_255: Picture(|_, picture| picture.refusals.iter_mut().for_each(|times| *times %= 256));
    accepted_lines_counted_as_refused: Picture(|_, picture| picture.refusals[0] += 1);
}

fn on_clients(picture: &mut Picture, change: impl Fn(usize, &mut ClientPicture)) {
    for FilePicture { file, clients, .. } in &mut picture.files {
        clients.iter_mut().for_each(|client| change(*file, client));
    }
}
