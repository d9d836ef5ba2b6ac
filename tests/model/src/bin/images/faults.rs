//! Deliberate faults of a judge, each named for the wrong answer it gives, and whether the strings find it.

use model::images::{ByteString, Judge, Sections, strings};
use model::{BLOCKS, Client, ClientFile, ClientSet, Entry, Record, Refusal, Service, Settings, Sizes};

use crate::compare::{first_difference, located};
use crate::wrong::{Fault, Wrong};

/// Groups of strings that are tried.
const SEEDS: u64 = 200;

macro_rules! faults {
    ($($name:ident: $wrong:ident($rule:expr);)*) => {
        const FAULTS: &[Fault] = &[$(Fault { name: stringify!($name), wrong: Wrong::$wrong($rule) }),*];
    };
}

faults! {
    // Strings that are no images. The checks of the first group are all that there are.
    other_sizes_accepted: Accepts(|sizes, image| {
        image.front.len() < 3 || image.front[..3] == [sizes.clients, sizes.files, sizes.blocks].map(low)
    });
    other_store_accepted: Accepts(|sizes, image| image.front.len() < 5 || image.front[3..] == store(sizes));
    missing_bytes_accepted: Accepts(|_, image| !image.cut_short);
    bytes_left_over_accepted: Accepts(|_, image| image.cut_short || image.rest.is_empty());
    file_out_of_range_accepted: Accepts(|sizes, image| image.files().all(|(file, ..)| file < low(sizes.files)));
    version_0_accepted: Accepts(|_, image| image.files().all(|(_, version, _)| version != 0));
    version_1_without_last_writer_accepted: Accepts(|_, image| {
        image.files().all(|(_, version, last_writer)| version != 1 || last_writer != 255)
    });
    last_writer_out_of_range_accepted: Accepts(|sizes, image| {
        image.files().all(|(.., last_writer)| last_writer < low(sizes.clients) || last_writer == 255)
    });
    file_twice_accepted: Accepts(|_, image| pairs(image.files(), |(one, ..), (next, ..)| one != next));
    descending_files_accepted: Accepts(|_, image| pairs(image.files(), |(one, ..), (next, ..)| one <= next));
    open_of_client_out_of_range_accepted: Accepts(|sizes, image| {
        image.opens().all(|[client, ..]| client < low(sizes.clients))
    });
    open_of_file_out_of_range_accepted: Accepts(|sizes, image| {
        image.opens().all(|[_, file, ..]| file < low(sizes.files))
    });
    open_without_counts_accepted: Accepts(|_, image| {
        image.opens().all(|[_, _, readers, writers, _]| readers > 0 || writers > 0)
    });
    permission_above_1_accepted: Accepts(|_, image| image.opens().all(|[.., permission]| permission <= 1));
    open_twice_accepted: Accepts(|_, image| pairs(image.opens(), |one, next| one[..2] != next[..2]));
    descending_opens_accepted: Accepts(|_, image| {
        pairs(image.opens(), |one, next| (one[1], one[0]) <= (next[1], next[0]))
    });
    block_of_file_out_of_range_accepted: Accepts(|sizes, image| {
        image.blocks().all(|(file, ..)| file < low(sizes.files))
    });
    block_out_of_range_accepted: Accepts(|sizes, image| image.blocks().all(|(_, block, _)| block < low(sizes.blocks)));
    block_twice_accepted: Accepts(|_, image| {
        pairs(image.blocks(), |one, next| (one.0, one.1) != (next.0, next.1))
    });
    descending_blocks_accepted: Accepts(|_, image| {
        pairs(image.blocks(), |one, next| (one.0, one.1) <= (next.0, next.1))
    });
    embargo_of_client_out_of_range_accepted: Accepts(|sizes, image| {
        image.embargoes().all(|client| client < low(sizes.clients))
    });
    embargo_twice_accepted: Accepts(|_, image| pairs(image.embargoes(), |one, next| one != next));
    descending_embargoes_accepted: Accepts(|_, image| pairs(image.embargoes(), |one, next| one <= next));

    // Images that are refused.
    empty_image_refused: Refuses(|_, image| image.entries.iter().any(|entries| !entries.is_empty()));
    sizes_not_given_asked_for: Refuses(|sizes, _| sizes == Settings::NOT_GIVEN.read());
    last_file_refused: Refuses(|sizes, image| image.files().all(|(file, ..)| file != low(sizes.files) - 1));
    last_client_refused: Refuses(|sizes, image| image.opens().all(|[client, ..]| client != low(sizes.clients) - 1));
    last_block_refused: Refuses(|sizes, image| image.blocks().all(|(_, block, _)| block != low(sizes.blocks) - 1));
    version_at_limit_refused: Refuses(|_, image| image.files().all(|(_, version, _)| version < u32::MAX));
    version_1_with_last_writer_refused: Refuses(|_, image| image.files().all(|(_, version, _)| version != 1));
    count_at_limit_refused: Refuses(|_, image| image.opens().all(|[_, _, readers, ..]| readers < 255));
    open_in_both_modes_refused: Refuses(|_, image| {
        image.opens().all(|[_, _, readers, writers, _]| readers == 0 || writers == 0)
    });
    open_without_permission_refused: Refuses(|_, image| image.opens().all(|[.., permission]| permission == 1));
    two_writers_with_permission_refused: Refuses(|_, image| {
        let writers = |&[_, _, _, writers, permission]: &[u8; 5]| writers > 0 && permission == 1;
        pairs(image.opens().filter(writers), |one, next| one[1] != next[1])
    });
    last_writer_with_writers_refused: Refuses(|_, image| {
        image.files().all(|(file, _, last_writer)| {
            image.opens().all(|[client, of, _, writers, _]| (client, of) != (last_writer, file) || writers == 0)
        })
    });
    writers_of_file_at_version_1_refused: Refuses(|_, image| {
        image.opens().all(|[_, file, _, writers, _]| writers == 0 || image.files().any(|(listed, ..)| listed == file))
    });
    block_of_file_at_version_1_refused: Refuses(|_, image| {
        image.blocks().all(|(file, ..)| image.files().any(|(listed, ..)| listed == file))
    });
    embargo_of_last_client_refused: Refuses(|sizes, image| {
        image.embargoes().all(|client| client != low(sizes.clients) - 1)
    });
    every_client_under_embargo_refused: Refuses(|sizes, image| image.embargoes().count() < sizes.clients);
    embargo_of_an_open_client_refused: Refuses(|_, image| {
        image.embargoes().all(|embargoed| image.opens().all(|[client, ..]| client != embargoed))
    });
    embargo_of_a_last_writer_refused: Refuses(|_, image| {
        image.embargoes().all(|embargoed| image.files().all(|(.., last_writer)| last_writer != embargoed))
    });
    zero_block_refused: Refuses(|_, image| image.blocks().all(|(.., value)| value != 0));
    more_used_blocks_than_the_store_refused: Refuses(|sizes, image| image.blocks().count() <= sizes.store);
    store_of_0_refused: Refuses(|sizes, _| sizes.store > 0);
    more_than_255_entries_refused: Refuses(|_, image| image.entries.iter().all(|entries| entries.len() < 256));

    // Fields taken wrongly.
    count_high_byte_first: Bytes(|_, bytes| {
        Sections::counted(bytes, |count| u64::from(count[0]) << 8 | u64::from(count[1])).join()
    });
    count_of_one_byte: Bytes(|_, bytes| Sections::counted(bytes, |count| u64::from(count[0])).join());
    version_high_byte_first: Bytes(|_, bytes| on_entries(bytes, 0, |entry| entry[1..5].reverse()));
    version_of_two_bytes: Bytes(|_, bytes| on_entries(bytes, 0, |entry| entry[3..5].fill(0)));
    value_high_byte_first: Bytes(|_, bytes| on_entries(bytes, 2, |entry| entry[2..].reverse()));
    value_of_four_bytes: Bytes(|_, bytes| on_entries(bytes, 2, |entry| entry[6..].fill(0)));
    open_with_file_before_client: Bytes(|_, bytes| on_entries(bytes, 1, |entry| entry.swap(0, 1)));
    block_before_file: Bytes(|_, bytes| on_entries(bytes, 2, |entry| entry.swap(0, 1)));
    opens_by_client_then_file: Bytes(|_, bytes| {
        let mut sections = Sections::of(bytes);
        if sections.entries[1].is_sorted() {
            sections.entries[1].sort_by_key(|open| (open[1], open[0]));
            return sections.join();
        }
        Vec::new()
    });
    image_without_its_last_section_accepted: Bytes(|_, bytes| {
        let longer = [bytes, &[0, 0]].concat();
        let sections = Sections::of(&longer);
        let is_its_count = !sections.cut_short && sections.rest.is_empty() && sections.entries[3].is_empty();
        if is_its_count { longer } else { bytes.to_vec() }
    });
    count_of_embargoes_of_one_byte: Bytes(|_, bytes| {
        let [.., place] = Sections::of(bytes).count_places();
        let mut bytes = bytes.to_vec();
        bytes.insert((place + 1).min(bytes.len()), 0);
        bytes
    });
    sizes_of_the_image_taken: Bytes(|sizes, bytes| {
        let mut bytes = bytes.to_vec();
        if bytes.len() > 3 {
            bytes[..3].copy_from_slice(&[sizes.clients, sizes.files, sizes.blocks].map(low));
        }
        bytes
    });
    store_high_byte_first: Bytes(|_, bytes| {
        let mut bytes = bytes.to_vec();
        if let Some(store) = bytes.get_mut(3..5) {
            store.reverse();
        }
        bytes
    });
    store_of_one_byte: Bytes(|sizes, bytes| {
        let mut bytes = bytes.to_vec();
        if let Some(high) = bytes.get_mut(4) {
            *high = store(sizes)[1];
        }
        bytes
    });
    store_missing_accepted: Bytes(|sizes, bytes| {
        let mut bytes = bytes.to_vec();
        bytes.splice(3.min(bytes.len())..3.min(bytes.len()), store(sizes));
        bytes
    });
    store_above_512_taken_as_512: Bytes(|sizes, bytes| {
        let mut bytes = bytes.to_vec();
        if sizes.store == 512 && bytes.len() > 4 && bytes[4] >= 2 {
            bytes[3..5].copy_from_slice(&[0, 2]);
        }
        bytes
    });

    // What an accepted reading does.
    versions_not_taken: Taken(|before, _, service| {
        on_files(service, |file, entry| entry.version = before.server.entries[file].version);
    });
    version_taken_one_too_high: Taken(|_, image, service| {
        for (file, version, _) in image.files() {
            service.server.entries[usize::from(file)].version.0 = version.saturating_add(1);
        }
    });
    versions_never_go_down: Taken(|before, _, service| {
        on_files(service, |file, entry| entry.version.0 = entry.version.0.max(before.server.entries[file].version.0));
    });
    version_of_file_not_listed_stays: Taken(|before, image, service| {
        on_files(service, |file, entry| {
            if image.files().all(|(listed, ..)| usize::from(listed) != file) {
                entry.version = before.server.entries[file].version;
            }
        });
    });
    blocks_not_taken: Taken(|before, _, service| {
        on_files(service, |file, entry| entry.blocks = before.server.entries[file].blocks);
    });
    block_not_listed_stays: Taken(|before, _, service| {
        on_files(service, |file, entry| {
            let before = &before.server.entries[file];
            for block in (0..BLOCKS).filter(|&block| !entry.used[block]).collect::<Vec<_>>() {
                (entry.blocks[block], entry.used[block]) = (before.blocks[block], before.used[block]);
            }
        });
    });
    used_blocks_not_taken: Taken(|before, _, service| {
        on_files(service, |file, entry| entry.used = before.server.entries[file].used);
    });
    used_blocks_stay_used: Taken(|before, _, service| {
        on_files(service, |file, entry| {
            for (used, before) in entry.used.iter_mut().zip(before.server.entries[file].used) {
                *used |= before;
            }
        });
    });
    zero_blocks_not_used: Taken(|_, _, service| {
        on_files(service, |_, entry| {
            for (used, value) in entry.used.iter_mut().zip(entry.blocks) {
                *used &= value != 0;
            }
        });
    });
    free_kept_by_the_reading: Taken(|before, _, service| service.server.free = before.server.free);
    all_free_after_the_reading: Taken(|_, _, service| service.server.free = service.sizes().store);
    free_by_the_blocks_that_are_not_zero: Taken(|_, image, service| {
        let taken = image.blocks().filter(|(.., value)| *value != 0).count();
        service.server.free = service.sizes().store.saturating_sub(taken);
    });
    free_below_0_taken_for_all: Taken(|_, image, service| {
        let store = service.sizes().store;
        service.server.free = store.checked_sub(image.blocks().count()).unwrap_or(store);
    });
    opens_taken_from_the_image: Taken(|_, image, service| {
        let taken = image.service(service.sizes());
        on_files(service, |file, entry| entry.records = taken.server.entries[file].records);
    });
    last_writers_taken_from_the_image: Taken(|_, image, service| {
        let taken = image.service(service.sizes());
        on_files(service, |file, entry| entry.last_writer = taken.server.entries[file].last_writer);
    });
    opens_kept: Taken(|before, _, service| {
        on_files(service, |file, entry| entry.records = before.server.entries[file].records);
    });
    last_writers_kept: Taken(|before, _, service| {
        on_files(service, |file, entry| entry.last_writer = before.server.entries[file].last_writer);
    });
    table_kept_and_no_recovery: Taken(|before, _, service| {
        on_files(service, |file, entry| {
            let kept = &before.server.entries[file];
            (entry.records, entry.last_writer) = (kept.records, kept.last_writer);
        });
        service.server.recovering = false;
    });
    embargoes_not_taken: Taken(|before, _, service| service.server.embargoed = before.server.embargoed);
    embargoes_kept: Taken(|before, _, service| {
        service.server.embargoed = service.server.embargoed.or(before.server.embargoed);
    });
    embargoes_lifted_alone: Taken(|before, _, service| {
        service.server.embargoed = service.server.embargoed.and(before.server.embargoed);
    });
    every_embargo_lifted: Taken(|_, _, service| service.server.embargoed = ClientSet::NONE);
    client_under_embargo_told_of_it: Taken(|before, _, service| {
        for client in before.server.embargoed.minus(service.server.embargoed).members() {
            service.clients[client] = Client::fresh();
        }
    });
    no_recovery: Taken(|_, _, service| service.server.recovering = false);
    recovery_goes_on: Taken(|before, _, service| service.server.reported = before.server.reported);
    all_count_as_reported: Taken(|_, _, service| service.server.reported = service.sizes().client_set());
    waits_kept: Taken(|before, _, service| {
        on_files(service, |file, entry| entry.waiting = before.server.entries[file].waiting);
    });
    clients_lose_their_opens: Taken(|_, _, service| {
        at_clients(service).for_each(|file| file.record = Record::default());
    });
    clients_lose_their_flags: Taken(|_, _, service| {
        at_clients(service).for_each(|file| file.last_writer_flag = false);
    });

    // What a refused reading does.
    refused_reading_is_a_crash: Refused(|_, service| service.server.crash(service.sizes()));
    refused_reading_lifts_embargoes: Refused(|_, service| service.server.embargoed = ClientSet::NONE);
    refused_reading_takes_embargoes: Refused(|image, service| {
        let taken = image.service(service.sizes()).server.embargoed;
        service.server.set_embargoes(service.sizes(), taken);
    });
    refused_reading_drops_waits: Refused(|_, service| {
        let sizes = service.sizes();
        on_files(service, |_, entry| entry.end_wait(sizes));
    });
    refused_reading_takes_versions: Refused(|image, service| {
        let taken = image.service(service.sizes());
        on_files(service, |file, entry| entry.version = taken.server.entries[file].version);
    });
    refused_reading_resets_free: Refused(|_, service| service.server.free_but_used(service.sizes()));
    refused_reading_takes_used_blocks: Refused(|image, service| {
        let taken = image.service(service.sizes());
        on_files(service, |file, entry| entry.used = taken.server.entries[file].used);
    });
    refused_reading_takes_blocks: Refused(|image, service| {
        let taken = image.service(service.sizes());
        on_files(service, |file, entry| entry.blocks = taken.server.entries[file].blocks);
    });

    // What is written.
    zero_blocks_not_written: Written(|image| image.entries[2].retain(|entry| entry[2..] != [0; 8]));
    store_not_written: Written(|image| image.front.truncate(3));
    store_written_high_byte_first: Written(|image| image.front[3..].reverse());
    store_of_512_written_as_not_given: Written(|image| {
        if image.front[3..] == [0, 2] {
            image.front[3..].fill(0);
        }
    });
    embargoes_not_written: Written(|image| image.entries[3].clear());
    embargoes_written_descending: Written(|image| image.entries[3].reverse());
    first_embargo_written_alone: Written(|image| image.entries[3].truncate(1));
    embargoes_written_before_the_blocks: Written(|image| image.entries.swap(2, 3));
}

/// As an image has it.
fn store(sizes: Sizes) -> [u8; 2] {
    (sizes.store as u16).to_le_bytes()
}

fn low(size: usize) -> u8 {
    size as u8
}

fn pairs<T: Copy>(entries: impl Iterator<Item = T> + Clone, holds: impl Fn(T, T) -> bool) -> bool {
    entries.clone().zip(entries.skip(1)).all(|(one, next)| holds(one, next))
}

fn on_entries(bytes: &[u8], section: usize, change: fn(&mut [u8])) -> Vec<u8> {
    let mut sections = Sections::of(bytes);
    if sections.cut_short {
        return bytes.to_vec();
    }
    sections.entries[section].iter_mut().for_each(|entry| change(entry));
    sections.join()
}

fn on_files(service: &mut Service, mut change: impl FnMut(usize, &mut Entry)) {
    let files = service.sizes().files;
    service.server.entries[..files].iter_mut().enumerate().for_each(|(file, entry)| change(file, entry));
}

fn at_clients(service: &mut Service) -> impl Iterator<Item = &mut ClientFile> {
    service.clients.iter_mut().flat_map(|client| &mut client.files)
}

fn checks() -> Vec<&'static Fault> {
    FAULTS.iter().filter(|fault| matches!(fault.wrong, Wrong::Accepts(_))).collect()
}

impl Fault {
    pub fn read_image(&self, service: &mut Service, bytes: &[u8]) -> Result<(), Refusal> {
        self.read_with(&checks(), service, bytes)
    }
}

pub fn named(name: &str) -> Option<&'static Fault> {
    FAULTS.iter().find(|fault| fault.name == name)
}

/// All checks, none left out.
const NO_FAULT: Fault = Fault { name: "no fault", wrong: Wrong::Accepts(|_, _| true) };

fn found(fault: &Fault, groups: &[Vec<ByteString>]) -> Option<String> {
    let checks = checks();
    let read = |service: &mut Service, bytes: &[u8]| fault.read_with(&checks, service, bytes);
    groups.iter().enumerate().find_map(|(seed, group)| {
        let write = |service: &Service| fault.written(service);
        let at = first_difference(group, Judge::model(), Judge::new(&read, &write))?;
        Some(format!("found with seed {seed}, {}", located(at, &group[at])))
    })
}

/// Every fault with the string that finds it; an error if one is not found, or if the checks are not the model's.
pub fn try_all() -> Result<String, String> {
    let groups: Vec<_> = (0..SEEDS).map(strings).collect();
    if let Some(difference) = found(&NO_FAULT, &groups) {
        return Err(format!("the checks are not the rules of the model: {difference}"));
    }
    let mut missed = 0;
    let mut told = Vec::new();
    for fault in FAULTS {
        let found = found(fault, &groups);
        missed += usize::from(found.is_none());
        told.push(format!("{}: {}", fault.name, found.unwrap_or("NOT FOUND".into())));
    }
    told.push(format!("{} of {} faults found", FAULTS.len() - missed, FAULTS.len()));
    if missed == 0 { Ok(told.join("\n")) } else { Err(told.join("\n")) }
}
