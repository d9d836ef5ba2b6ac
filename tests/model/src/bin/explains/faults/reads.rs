//! Faults of what is told of reads and of writes: whose write it was, and which copy a read took.

use model::Step;
use model::explain::{Granted, Origin, Place, Reading, Source, Told, WrittenAt};

use crate::fault::{Lines, faults};

faults! {
    // Whose write, and which line.
    previous_write_named: Read(|lines, read| {
        on_write(read, |at, place| at.line = lines.writes(place).nth(1).map_or(at.line, |write| write.line));
    });
    previous_writer_named: Read(|lines, read| {
        on_write(read, |at, place| at.client = lines.writes(place).nth(1).map_or(at.client, |write| write.client));
    });
    first_write_named: Read(|lines, read| {
        on_write(read, |at, place| *at = lines.writes(place).last().unwrap_or(*at));
    });
    refused_write_named: Read(|lines, read| {
        let refused = lines.before().find_map(|(line, before)| match before.step? {
            Step::Write { client, file, block, value } if is_block(read.place, file, block) => {
                Some(WrittenAt { line, client: client as usize % 8, value })
            }
            _ => None,
        });
        read.origin = refused.map_or(read.origin, Origin::Written);
    });
    write_at_the_server_not_noted: Read(|lines, read| noted_only(lines, read, |in_copy| in_copy));
    write_in_the_copy_not_noted: Read(|lines, read| noted_only(lines, read, |in_copy| !in_copy));
    flush_named_as_the_write: Read(|lines, read| {
        let flushed = lines.latest(|told| matches!(told, Told::Flushed(place) if same_block(*place, read.place)));
        on_write(read, |at, _| at.line = at.line.max(flushed.unwrap_or(0)));
    });
    writer_of_another_block_named: Read(|lines, read| {
        let file = read.place.file;
        let latest = lines.latest(|told| matches!(told, Told::Written { place, .. } if place.file == file));
        on_write(read, |at, _| at.line = latest.unwrap_or(at.line));
    });
    line_of_the_copy_named_as_the_writers: Read(|_, read| {
        if let Source::OwnCopy { since, .. } = read.source {
            on_write(read, |at, _| at.line = since);
        }
    });
    reader_named_as_the_writer: Read(|_, read| on_write(read, |at, place| at.client = place.client));
    line_of_the_read_named: Read(|lines, read| on_write(read, |at, _| at.line = lines.now()));
    lines_counted_from_0: Read(|_, read| on_write(read, |at, _| at.line -= 1));
    line_of_8_bits: Read(|_, read| on_write(read, |at, _| at.line %= 1 << 8));
    writes_before_a_crash_forgotten: Read(|lines, read| {
        let crash = lines.latest(|told| *told == Told::Crashed).unwrap_or(0);
        if matches!(read.origin, Origin::Written(at) if at.line < crash) {
            read.origin = Origin::NeverWritten;
        }
    });
    writes_before_the_grant_forgotten: Read(|lines, read| {
        let grant = lines.latest(|told| is_grant(told, read.place)).unwrap_or(0);
        if matches!(read.origin, Origin::Written(at) if at.line < grant) {
            read.origin = Origin::NeverWritten;
        }
    });
    never_written_told_of_0: Read(|_, read| {
        if matches!(read.origin, Origin::Written(at) if at.value == 0) {
            read.origin = Origin::NeverWritten;
        }
    });
    never_written_told_of_an_image: Read(|_, read| {
        if read.origin == Origin::Image {
            read.origin = Origin::NeverWritten;
        }
    });
    image_told_without_one: Read(|_, read| {
        if read.origin == Origin::NeverWritten {
            read.origin = Origin::Image;
        }
    });

    // Which copy.
    copy_told_as_the_servers: Read(|_, read| read.source = Source::Server);
    dirty_copy_told_as_the_servers: Read(|_, read| {
        if matches!(read.source, Source::OwnCopy { dirty: true, .. }) {
            read.source = Source::Server;
        }
    });
    fetched_block_told_as_a_copy: Read(|lines, read| {
        if read.source == Source::Fetched {
            read.source = Source::OwnCopy { dirty: false, since: lines.now() };
        }
    });
    servers_block_told_as_a_copy: Read(|lines, read| {
        if read.source == Source::Server {
            let since = lines.latest(|told| comes_to(told, read.place)).unwrap_or(lines.now());
            read.source = Source::OwnCopy { dirty: false, since };
        }
    });
    copy_since_its_first_fetch: Read(|lines, read| {
        let first = lines.before().filter(|(_, line)| comes_to(&line.told, read.place)).last();
        on_copy(read, |_, since| *since = first.map_or(*since, |(number, _)| number));
    });
    copy_since_its_fetch_although_written: Read(|lines, read| {
        let fetched = lines.latest(|told| is_fetch(told, read.place));
        on_copy(read, |_, since| *since = fetched.unwrap_or(0));
    });
    copy_since_its_write_although_fetched: Read(|lines, read| {
        let written = lines.latest(|told| is_write_in_copy(told, read.place));
        on_copy(read, |_, since| *since = written.unwrap_or(0));
    });
    copy_since_the_write_it_has: Read(|_, read| {
        if let Origin::Written(at) = read.origin {
            on_copy(read, |_, since| *since = at.line);
        }
    });
    copy_since_the_grant: Read(|lines, read| {
        let granted = lines.latest(|told| is_grant(told, read.place));
        on_copy(read, |_, since| *since = granted.unwrap_or(0));
    });
    copy_since_the_latest_read: Read(|lines, read| {
        let place = read.place;
        let latest = lines.latest(|told| {
            comes_to(told, place) || matches!(told, Told::Read(Reading { place: of, .. }) if *of == place)
        });
        on_copy(read, |_, since| *since = latest.unwrap_or(0));
    });
    copy_since_another_stations_fetch: Read(|lines, read| {
        let place = read.place;
        let latest = lines.latest(|told| (0..8).any(|client| comes_to(told, Place { client, ..place })));
        on_copy(read, |_, since| *since = latest.unwrap_or(0));
    });
    copy_since_the_fetch_of_another_block: Read(|lines, read| {
        let place = read.place;
        let latest = lines.latest(|told| (0..8).any(|block| comes_to(told, Place { block, ..place })));
        on_copy(read, |_, since| *since = latest.unwrap_or(0));
    });
    dirty_forgotten: Read(|_, read| on_copy(read, |dirty, _| *dirty = false));
    clean_copy_told_dirty: Read(|_, read| on_copy(read, |dirty, _| *dirty = true));
    flushed_copy_told_dirty: Read(|lines, read| {
        let place = read.place;
        let written = lines.latest(|told| is_write_in_copy(told, place));
        on_copy(read, |dirty, since| *dirty = written == Some(*since));
    });

    // Where a write goes.
    write_at_the_server_told_in_the_copy: Line(|_, told| {
        if let Told::Written { in_copy, .. } = told {
            *in_copy = true;
        }
    });
    write_in_the_copy_told_at_the_server: Line(|_, told| {
        if let Told::Written { in_copy, .. } = told {
            *in_copy = false;
        }
    });
}

fn on_write(read: &mut Reading, change: impl FnOnce(&mut WrittenAt, Place)) {
    if let Origin::Written(at) = &mut read.origin {
        change(at, read.place);
    }
}

fn on_copy(read: &mut Reading, change: impl FnOnce(&mut bool, &mut u64)) {
    if let Source::OwnCopy { dirty, since } = &mut read.source {
        change(dirty, since);
    }
}

/// The latest of those writes alone that go where this says.
fn noted_only(lines: &Lines, read: &mut Reading, noted: impl Fn(bool) -> bool) {
    let of = read.place;
    let at = lines.latest(|told| match told {
        Told::Written { place, in_copy, .. } => same_block(*place, of) && noted(*in_copy),
        _ => false,
    });
    let write = at.and_then(|at| lines.writes(of).find(|write| write.line == at));
    read.origin = write.map_or(Origin::NeverWritten, Origin::Written);
}

fn same_block(one: Place, other: Place) -> bool {
    (one.file, one.block) == (other.file, other.block)
}

fn is_block(place: Place, file: u64, block: u64) -> bool {
    (place.file as u64, place.block as u64) == (file, block)
}

fn is_fetch(told: &Told, of: Place) -> bool {
    matches!(told, Told::Read(Reading { place, source: Source::Fetched, .. }) if *place == of)
}

fn is_write_in_copy(told: &Told, of: Place) -> bool {
    matches!(told, Told::Written { place, in_copy: true, .. } if *place == of)
}

/// Whether the line brings the block to the client's copy.
fn comes_to(told: &Told, of: Place) -> bool {
    is_fetch(told, of) || is_write_in_copy(told, of)
}

fn is_to(granted: &Granted, of: Place) -> bool {
    (granted.opening.client, granted.opening.file) == (of.client, of.file)
}

/// Whether the line grants the file to the client.
fn is_grant(told: &Told, of: Place) -> bool {
    match told {
        Told::Granted(granted) | Told::AnsweredLast { granted, .. } => is_to(granted, of),
        Told::Restarted { granted, .. } | Told::Embargoed { granted, .. } => {
            granted.iter().any(|granted| is_to(granted, of))
        }
        _ => false,
    }
}
