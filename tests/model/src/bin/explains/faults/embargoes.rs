//! Faults of what is told of embargoes: of the steps themselves, of reads, writes and refusals under one, of the
//! picture, and of reads by others after a write was lost that way.

use model::Settings;
use model::explain::{EmbargoPicture, Granted, LostAt, Origin, Picture, Place, Reason, Source, Told, WrittenAt};

use crate::fault::{Lines, faults};

faults! {
    // The step EM.
    embargo_told_as_a_restart: Line(|_, told| {
        if let Told::Embargoed { client, opened, lost, granted } = told.clone() {
            *told = Told::Restarted { client, opened, lost, granted };
        }
    });
    embargo_told_as_an_answer: Line(|_, told| {
        if let Told::Embargoed { client, granted, .. } = told.clone()
            && let [granted] = granted[..]
        {
            *told = Told::AnsweredLast { client, sent: 0, granted };
        }
    });
    files_open_at_an_embargo_not_told: Line(|_, told| {
        if let Told::Embargoed { opened, .. } = told {
            opened.clear();
        }
    });
    first_file_open_at_an_embargo_told_alone: Line(|_, told| {
        if let Told::Embargoed { opened, .. } = told {
            opened.truncate(1);
        }
    });
    files_open_at_an_embargo_by_the_servers_record: Line(|lines, told| {
        if let Told::Embargoed { client, opened, .. } = told {
            let client = *client;
            opened.retain(|&file| lines.service.server.entries[file].records[client].is_open());
        }
    });
    writes_lost_by_an_embargo_not_told: Line(|_, told| on_losses(told, Vec::clear));
    first_write_lost_by_an_embargo_told_alone: Line(|_, told| on_losses(told, |lost| lost.truncate(1)));
    writes_lost_by_an_embargo_told_by_line: Line(|_, told| on_losses(told, |lost| lost.sort_by_key(|lost| lost.line)));
    first_line_of_writes_lost_by_an_embargo_told: Line(|lines, told| {
        if let Told::Embargoed { client, lost, .. } = told {
            for lost in lost {
                let place = Place { client: *client, file: lost.file, block: lost.block };
                let first = lines.writes(place).filter(|write| write.client == *client).last();
                lost.line = first.map_or(lost.line, |write| write.line);
            }
        }
    });
    grants_of_an_embargo_not_told: Line(|_, told| on_grants(told, Vec::clear));
    first_grant_of_an_embargo_told_alone: Line(|_, told| on_grants(told, |granted| granted.truncate(1)));
    grants_of_an_embargo_told_by_descending_file: Line(|_, told| on_grants(told, |granted| granted.reverse()));

    // The step LF.
    lift_told_as_a_restart: Line(|_, told| {
        if let Told::Lifted { client, opened } = told.clone() {
            *told = Told::Restarted { client, opened, lost: vec![], granted: vec![] };
        }
    });
    files_open_at_a_lift_not_told: Line(|_, told| {
        if let Told::Lifted { opened, .. } = told {
            opened.clear();
        }
    });
    files_open_at_a_lift_by_the_embargo: Line(|lines, told| {
        if let Told::Lifted { client, opened } = told {
            let of = |told: &Told| match told {
                Told::Embargoed { client: by, lost, .. } if by == client => Some(lost.clone()),
                _ => None,
            };
            let lost = lines.before().find_map(|(_, line)| of(&line.told));
            *opened = lost.map_or(opened.clone(), |lost| lost.iter().map(|lost| lost.file).collect());
        }
    });
    writes_lost_told_again_at_a_restart: Line(|lines, told| {
        if let Told::Restarted { client, lost, .. } = told {
            let of = |told: &Told| match told {
                Told::Embargoed { client: by, lost, .. } if by == client => Some(lost.clone()),
                Told::Lifted { client: by, .. } | Told::Restarted { client: by, .. } if by == client => Some(vec![]),
                _ => None,
            };
            lost.extend(lines.before().find_map(|(_, line)| of(&line.told)).unwrap_or_default());
        }
    });

    // Reads and writes under embargo.
    read_under_embargo_told_with_its_writer: Read(|_, read| read.embargo = None);
    read_under_embargo_told_as_the_servers: Read(|_, read| {
        if read.embargo.is_some() {
            read.source = Source::Server;
        }
    });
    read_under_embargo_since_the_read: Read(|lines, read| on_line(&mut read.embargo, |line| *line = lines.now()));
    read_under_embargo_since_the_copy: Read(|_, read| {
        if let Source::OwnCopy { since, .. } = read.source {
            on_line(&mut read.embargo, |line| *line = since);
        }
    });
    read_under_embargo_since_the_first: Read(|lines, read| {
        let client = read.place.client;
        on_line(&mut read.embargo, |line| *line = embargoes(lines, client).last().unwrap_or(*line));
    });
    read_under_embargo_as_the_image_has_it: Read(|_, read| on_line(&mut read.embargo, |line| *line = 0));
    nothing_promised_told_of_everybody: Read(|lines, read| {
        let latest = lines.latest(|told| matches!(told, Told::Embargoed { .. }));
        read.embargo = read.embargo.or(latest);
    });
    write_under_embargo_not_told_as_lost: Line(|_, told| on_write(told, |embargo| *embargo = None));
    write_under_embargo_told_at_the_server: Line(|_, told| {
        if let Told::Written { in_copy, embargo: Some(_), .. } = told {
            *in_copy = false;
        }
    });
    write_lost_since_the_write: Line(|lines, told| {
        on_write(told, |embargo| on_line(embargo, |line| *line = lines.now()));
    });
    write_lost_since_the_latest_embargo_of_any: Line(|lines, told| {
        let latest = lines.latest(|told| matches!(told, Told::Embargoed { .. }));
        on_write(told, |embargo| on_line(embargo, |line| *line = latest.unwrap_or(*line)));
    });

    // Refusals.
    embargo_since_the_refused_line: Refusal(|lines, reason| {
        if let Reason::UnderEmbargo { since, .. } = reason {
            *since = lines.now();
        }
    });
    embargo_since_the_previous_one: Refusal(|lines, reason| {
        if let Reason::UnderEmbargo { client, since } = reason {
            *since = embargoes(lines, *client).nth(1).unwrap_or(*since);
        }
    });
    embargo_told_as_the_images: Refusal(|_, reason| {
        if let Reason::UnderEmbargo { since, .. } = reason {
            *since = 0;
        }
    });
    embargo_of_the_image_told_since_line_1: Refusal(|_, reason| {
        if let Reason::UnderEmbargo { since, .. } = reason {
            *since = (*since).max(1);
        }
    });
    another_station_told_to_be_under_embargo: Refusal(|_, reason| {
        if let Reason::UnderEmbargo { client, .. } = reason {
            *client = (*client + 1) % 8;
        }
    });
    another_station_told_to_be_without_embargo: Refusal(|_, reason| {
        if let Reason::NotUnderEmbargo { client } = reason {
            *client = (*client + 1) % 8;
        }
    });
    no_embargo_told_as_no_call: Refusal(|_, reason| {
        if let Reason::NotUnderEmbargo { client } = *reason {
            *reason = Reason::NoCallback { client, file: 0 };
        }
    });
    stations_under_embargo_still_to_report: Refusal(|lines, reason| {
        if let Reason::Recovering { to_report } | Reason::ReportsMissing { to_report } = reason {
            *to_report = to_report.or(lines.service.server.embargoed);
        }
    });

    // Reads by others after a write under embargo.
    write_under_embargo_not_told_to_others: Read(|lines, read| {
        let in_vain = read.lost.filter(|lost| is_in_vain(lines, lost.line));
        if in_vain.is_some() {
            read.lost = None;
        }
    });
    write_lost_by_the_embargo_told_in_place_of_a_later_one: Read(|lines, read| {
        if let Some(lost) = &mut read.lost
            && is_in_vain(lines, lost.line)
        {
            let earlier = |write: &WrittenAt| write.line < lost.line && write.client == lost.client;
            *lost = lines.writes(read.place).find(earlier).unwrap_or(*lost);
        }
    });
    write_under_embargo_named_as_the_latest: Read(|lines, read| {
        if let Some(lost) = read.lost.filter(|lost| is_in_vain(lines, lost.line)) {
            (read.origin, read.lost) = (Origin::Written(lost), None);
        }
    });
    never_written_told_of_a_write_under_embargo: Read(|lines, read| {
        if read.origin == Origin::Start && read.lost.is_some_and(|lost| is_in_vain(lines, lost.line)) {
            read.origin = Origin::NeverWritten;
        }
    });

    // The picture.
    embargoes_missing: Picture(|_, picture| picture.embargoed.clear());
    first_embargo_told_alone: Picture(|_, picture| picture.embargoed.truncate(1));
    embargoes_descend: Picture(|_, picture| picture.embargoed.reverse());
    embargo_without_lost_writes_missing: Picture(|_, picture| picture.embargoed.retain(|told| !told.lost.is_empty()));
    picture_with_an_embargo_a_line_late: Picture(|_, picture| on_embargoes(picture, |told| told.since += 1));
    picture_with_an_embargo_by_the_image: Picture(|_, picture| on_embargoes(picture, |told| told.since = 0));
    lost_writes_missing: Picture(|_, picture| on_embargoes(picture, |told| told.lost.clear()));
    last_lost_write_missing: Picture(|_, picture| {
        on_embargoes(picture, |told| told.lost.truncate(told.lost.len().saturating_sub(1)));
    });
    lost_writes_of_the_embargo_alone: Picture(|_, picture| {
        on_embargoes(picture, |told| told.lost.retain(|lost| lost.line < told.since));
    });
    lost_writes_since_the_embargo_alone: Picture(|_, picture| {
        on_embargoes(picture, |told| told.lost.retain(|lost| lost.line > told.since));
    });
    lost_writes_by_line: Picture(|_, picture| on_embargoes(picture, |told| told.lost.sort_by_key(|lost| lost.line)));
    lost_writes_by_block: Picture(|_, picture| {
        on_embargoes(picture, |told| told.lost.sort_by_key(|lost| (lost.block, lost.file)));
    });
    lost_writes_of_four_blocks_at_most: Picture(|_, picture| {
        let four = Settings::NOT_GIVEN.blocks as usize;
        on_embargoes(picture, |told| told.lost.retain(|lost| lost.block < four));
    });
    picture_with_stations_under_embargo_still_to_report: Picture(|service, picture| {
        let embargoed = service.server.embargoed.and(service.sizes().client_set());
        picture.recovering = picture.recovering.map(|to_report| to_report.or(embargoed));
    });
}

fn on_losses(told: &mut Told, change: impl FnOnce(&mut Vec<LostAt>)) {
    if let Told::Embargoed { lost, .. } = told {
        change(lost);
    }
}

fn on_grants(told: &mut Told, change: impl FnOnce(&mut Vec<Granted>)) {
    if let Told::Embargoed { granted, .. } = told {
        change(granted);
    }
}

fn on_write(told: &mut Told, change: impl FnOnce(&mut Option<u64>)) {
    if let Told::Written { embargo, .. } = told {
        change(embargo);
    }
}

fn on_line(embargo: &mut Option<u64>, change: impl FnOnce(&mut u64)) {
    if let Some(line) = embargo {
        change(line);
    }
}

fn on_embargoes(picture: &mut Picture, change: impl Fn(&mut EmbargoPicture)) {
    picture.embargoed.iter_mut().for_each(change);
}

/// The lines that put this client under embargo, the latest first.
fn embargoes(lines: &Lines, client: usize) -> impl Iterator<Item = u64> {
    lines.before().filter_map(move |(number, line)| match line.told {
        Told::Embargoed { client: by, .. } if by == client => Some(number),
        _ => None,
    })
}

/// Whether the line is a write under embargo.
fn is_in_vain(lines: &Lines, at: u64) -> bool {
    let line = lines.before().find(|(number, _)| *number == at);
    line.is_some_and(|(_, line)| matches!(line.told, Told::Written { embargo: Some(_), .. }))
}
