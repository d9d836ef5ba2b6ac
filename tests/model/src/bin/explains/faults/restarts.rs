//! Faults of what is told of restarts, and of reads after a write was lost.

use std::collections::BTreeMap;

use model::explain::{CopyAtGrant, Granted, LostAt, Origin, Place, Reading, Told, WrittenAt};

use crate::fault::{Lines, faults};

faults! {
    // Reads after a loss.
    lost_write_not_told: Read(|_, read| read.lost = None);
    lost_write_named_as_the_latest: Read(|_, read| {
        if let Some(lost) = read.lost.take() {
            read.origin = Origin::Written(lost);
        }
    });
    never_written_told_of_a_lost_write: Read(|_, read| {
        if read.origin == Origin::Start {
            read.origin = Origin::NeverWritten;
        }
    });
    image_told_without_one_after_a_loss: Read(|_, read| {
        if read.origin == Origin::Start {
            read.origin = Origin::Image;
        }
    });
    start_told_of_an_image_after_a_loss: Read(|_, read| {
        if read.origin == Origin::Image && read.lost.is_some() {
            read.origin = Origin::Start;
        }
    });
    start_told_of_a_block_never_written: Read(|_, read| {
        if read.origin == Origin::NeverWritten {
            read.origin = Origin::Start;
        }
    });
    earlier_lost_write_named: Read(|lines, read| {
        let place = read.place;
        on_lost(read, |lost| {
            let earlier = lines.writes(place).find(|write| write.line < lost.line && write.client == lost.client);
            *lost = earlier.unwrap_or(*lost);
        });
    });
    line_of_the_restart_named_for_the_lost_write: Read(|lines, read| {
        on_lost(read, |lost| {
            let client = lost.client;
            let restart = lines.latest(|told| matches!(told, Told::Restarted { client: by, .. } if *by == client));
            lost.line = restart.unwrap_or(lost.line);
        });
    });
    reader_named_for_the_lost_write: Read(|_, read| {
        let reader = read.place.client;
        on_lost(read, |lost| lost.client = reader);
    });
    loss_told_after_the_next_write: Read(|lines, read| {
        let earlier = lines.before().find_map(|(_, line)| lost_there(&line.told, read.place));
        let lost = earlier.and_then(|at| lines.writes(read.place).find(|write| write.line == at));
        read.lost = read.lost.or(lost);
    });

    // The files that were open.
    opened_files_not_told: Line(|_, told| on_opened(told, Vec::clear));
    first_opened_file_told_alone: Line(|_, told| on_opened(told, |opened| opened.truncate(1)));
    opened_files_told_descending: Line(|_, told| on_opened(told, |opened| opened.reverse()));
    files_with_lost_writes_told_as_open: Line(|_, told| {
        if let Told::Restarted { opened, lost, .. } = told {
            opened.extend(lost.iter().map(|lost| lost.file));
            opened.sort_unstable();
            opened.dedup();
        }
    });

    // The writes that are lost.
    lost_writes_not_told: Line(|_, told| on_losses(told, Vec::clear));
    first_lost_write_told_alone: Line(|_, told| on_losses(told, |lost| lost.truncate(1)));
    lost_writes_told_by_line: Line(|_, told| on_losses(told, |lost| lost.sort_by_key(|lost| lost.line)));
    lost_writes_told_by_block: Line(|_, told| on_losses(told, |lost| lost.sort_by_key(|lost| (lost.block, lost.file))));
    lost_writes_of_closed_files_not_told: Line(|_, told| {
        if let Told::Restarted { opened, lost, .. } = told {
            lost.retain(|lost| opened.contains(&lost.file));
        }
    });
    first_line_of_lost_writes_told: Line(|lines, told| {
        if let Told::Restarted { client, lost, .. } = told {
            for lost in lost {
                let place = Place { client: *client, file: lost.file, block: lost.block };
                let first = lines.writes(place).filter(|write| write.client == *client).last();
                lost.line = first.map_or(lost.line, |write| write.line);
            }
        }
    });
    sent_writes_told_as_lost: Line(|lines, told| {
        if let Told::Restarted { client, lost, .. } = told {
            *lost = latest_writes(lines, *client, |_| true);
        }
    });
    flushed_writes_told_as_lost: Line(|lines, told| {
        if let Told::Restarted { client, lost, .. } = told {
            *lost = latest_writes(lines, *client, |in_copy| in_copy);
        }
    });

    // The grants.
    grants_of_a_restart_not_told: Line(|_, told| on_grants(told, Vec::clear));
    first_grant_of_a_restart_told_alone: Line(|_, told| on_grants(told, |granted| granted.truncate(1)));
    grants_of_a_restart_told_by_descending_file: Line(|_, told| on_grants(told, |granted| granted.reverse()));
    grant_of_a_restart_told_to_the_restarted: Line(|_, told| {
        if let Told::Restarted { client, granted, .. } = told {
            granted.iter_mut().for_each(|granted| granted.opening.client = *client);
        }
    });
    // The label is kept, and the copy is told to be dropped at the next grant.
    dropped_told_of_a_copy_that_a_restart_took: Grant(|lines, granted| {
        let (client, file) = (granted.opening.client, granted.opening.file);
        let restart = lines.latest(|told| matches!(told, Told::Restarted { client: by, .. } if *by == client));
        let before = lines.before().filter(|(number, _)| Some(*number) < restart);
        let had = before.filter_map(|(_, line)| granted_in(&line.told, client, file)).next();
        if let (CopyAtGrant::None, Some(version)) = (granted.copy, had) {
            granted.copy = CopyAtGrant::Dropped(version);
        }
    });
}

fn on_lost(read: &mut Reading, change: impl FnOnce(&mut WrittenAt)) {
    if let Some(lost) = &mut read.lost {
        change(lost);
    }
}

fn on_opened(told: &mut Told, change: impl FnOnce(&mut Vec<usize>)) {
    if let Told::Restarted { opened, .. } = told {
        change(opened);
    }
}

fn on_losses(told: &mut Told, change: impl FnOnce(&mut Vec<LostAt>)) {
    if let Told::Restarted { lost, .. } = told {
        change(lost);
    }
}

fn on_grants(told: &mut Told, change: impl FnOnce(&mut Vec<Granted>)) {
    if let Told::Restarted { granted, .. } = told {
        change(granted);
    }
}

/// The version at which the line grants the file to the client with permission.
fn granted_in(told: &Told, client: usize, file: usize) -> Option<u32> {
    let granted = match told {
        Told::Granted(granted) | Told::AnsweredLast { granted, .. } => std::slice::from_ref(granted),
        Told::Restarted { granted, .. } | Told::Embargoed { granted, .. } => granted,
        _ => &[],
    };
    let is_to_it = |granted: &&Granted| (granted.opening.client, granted.opening.file) == (client, file);
    granted.iter().find(is_to_it).filter(|granted| granted.may_cache).map(|granted| granted.version)
}

/// The line of the write to this block that the line loses.
fn lost_there(told: &Told, place: Place) -> Option<u64> {
    let Told::Restarted { lost, .. } = told else { return None };
    lost.iter().find(|lost| (lost.file, lost.block) == (place.file, place.block)).map(|lost| lost.line)
}

/// The latest write of this client to each block, of those that count by where they went.
fn latest_writes(lines: &Lines, client: usize, counts: impl Fn(bool) -> bool) -> Vec<LostAt> {
    let mut latest = BTreeMap::new();
    for (line, before) in lines.before() {
        if let Told::Written { place, in_copy, .. } = before.told
            && place.client == client
            && counts(in_copy)
        {
            latest.entry((place.file, place.block)).or_insert(line);
        }
    }
    latest.into_iter().map(|((file, block), line)| LostAt { file, block, line }).collect()
}
