//! Faults of what is told of refusals.

use model::explain::{Opening, Reason, Told, Waiting};
use model::{ClientSet, Mode, Settings, Step};

use super::opens::{latest_wait, without_last};
use crate::fault::{Lines, faults};

faults! {
    // Numbers that are not there.
    usual_sizes_told: Refusal(|_, reason| {
        let usual = Settings::NOT_GIVEN.read();
        match reason {
            Reason::NoSuchClient(_, clients) => *clients = usual.clients,
            Reason::NoSuchFile(_, files) => *files = usual.files,
            Reason::NoSuchBlock(_, blocks) => *blocks = usual.blocks,
            _ => {}
        }
    });
    last_number_told_as_how_many: Refusal(|_, reason| match reason {
        Reason::NoSuchClient(_, count) | Reason::NoSuchFile(_, count) | Reason::NoSuchBlock(_, count) => *count -= 1,
        _ => {}
    });
    missing_number_told_in_32_bits: Refusal(|_, reason| match reason {
        Reason::NoSuchClient(number, _) | Reason::NoSuchFile(number, _) | Reason::NoSuchBlock(number, _) => {
            *number &= u64::from(u32::MAX);
        }
        _ => {}
    });

    // Reports.
    reported_stations_still_to_report: Refusal(|lines, reason| {
        on_reports(reason, |to_report| lines.service.sizes().client_set().minus(to_report));
    });
    all_stations_still_to_report: Refusal(|lines, reason| {
        on_reports(reason, |_| lines.service.sizes().client_set());
    });
    stations_past_the_settings_still_to_report: Refusal(|lines, reason| {
        let past = ClientSet::ALL.minus(lines.service.sizes().client_set());
        on_reports(reason, |to_report| ClientSet::of(|client| to_report.contains(client) || past.contains(client)));
    });
    first_station_still_to_report_alone: Refusal(|_, reason| {
        on_reports(reason, |to_report| to_report.members().next().map_or(to_report, ClientSet::only));
    });
    another_station_told_to_have_reported: Refusal(|_, reason| {
        if let Reason::AlreadyReported { client } = reason {
            *client = (*client + 1) % 8;
        }
    });

    // An open that waits.
    wait_since_the_refused_line: Refusal(|lines, reason| on_wait(reason, |waiting| waiting.since = lines.now()));
    wait_since_the_first_wait: Refusal(|lines, reason| {
        on_wait(reason, |waiting| waiting.since = waits(lines, waiting.opening.file).last().unwrap_or(0));
    });
    wait_since_the_previous_wait: Refusal(|lines, reason| {
        on_wait(reason, |waiting| waiting.since = waits(lines, waiting.opening.file).nth(1).unwrap_or(waiting.since));
    });
    wait_since_a_wait_of_any_file: Refusal(|lines, reason| {
        let latest = lines.latest(|told| matches!(told, Told::Waits { .. }));
        on_wait(reason, |waiting| waiting.since = latest.unwrap_or(0));
    });
    wait_since_the_latest_answer: Refusal(|lines, reason| {
        on_wait(reason, |waiting| {
            let of = waiting.opening.file;
            let answer = lines.latest(|told| matches!(told, Told::Answered { file, .. } if *file == of));
            waiting.since = waiting.since.max(answer.unwrap_or(0));
        });
    });
    refused_station_told_as_the_one_that_waits: Refusal(|lines, reason| {
        let asks = step_of(lines);
        on_wait(reason, |waiting| {
            if let Some(Step::Open { client, .. } | Step::Close { client, .. }) = asks {
                waiting.opening.client = client as usize;
            }
        });
    });
    mode_of_the_refused_open_told: Refusal(|lines, reason| {
        let asks = step_of(lines);
        on_wait(reason, |waiting| {
            if let Some(Step::Open { mode, .. }) = asks {
                waiting.opening.mode = mode;
            }
        });
    });
    refused_open_told_without_a_station_still_to_answer: Refusal(|_, reason| {
        on_wait(reason, |waiting| waiting.still = without_last(waiting.still));
    });
    refused_open_told_with_every_called_station: Refusal(|lines, reason| {
        on_wait(reason, |waiting| {
            waiting.still = latest_wait(lines, waiting.opening.file).map_or(waiting.still, |calls| calls.clients());
        });
    });

    // The station itself.
    mode_not_told_of_a_file_that_is_not_open: Refusal(|_, reason| {
        if let Reason::NotOpen { needed, .. } = reason {
            *needed = None;
        }
    });
    read_told_to_need_a_read_open: Refusal(|_, reason| {
        if let Reason::NotOpen { needed, .. } = reason {
            *needed = needed.or(Some(Mode::Read));
        }
    });
    write_told_to_need_any_open: Refusal(|lines, reason| {
        if let (Reason::NotOpen { needed, .. }, Some(Step::Write { .. })) = (reason, step_of(lines)) {
            *needed = None;
        }
    });
    full_count_told_of_the_other_mode: Refusal(|_, reason| {
        if let Reason::CountAtLimit(Opening { mode, .. }) = reason {
            *mode = if *mode == Mode::Read { Mode::Write } else { Mode::Read };
        }
    });
    another_block_told_not_dirty: Refusal(|_, reason| {
        if let Reason::NotDirty(place) = reason {
            place.block = 0;
        }
    });
    call_told_of_file_0: Refusal(|_, reason| {
        if let Reason::NoCallback { file, .. } = reason {
            *file = 0;
        }
    });
    no_step_told_of_a_setting_out_of_range: Refusal(|_, reason| {
        if *reason == Reason::SettingOutOfRange {
            *reason = Reason::NotAStep;
        }
    });
    no_place_told_of_block_0: Refusal(|_, reason| {
        if let Reason::NoPlace { place, .. } = reason {
            place.block = 0;
        }
    });
    used_told_as_reserved: Refusal(|_, reason| {
        if let Reason::NoPlace { places, .. } = reason {
            (places.used, places.reserved) = (places.reserved, places.used);
        }
    });
    first_station_that_reserves_missing: Refusal(|_, reason| {
        if let Reason::NoPlace { places, .. } = reason {
            places.by = places.by.members().next().map_or(places.by, |first| places.by.without(first));
        }
    });
    settings_out_of_range_told_of_a_late_line: Refusal(|lines, reason| {
        if *reason == Reason::NotAStep && lines.now() == 2 {
            *reason = Reason::SettingOutOfRange;
        }
    });
}

fn on_reports(reason: &mut Reason, change: impl Fn(ClientSet) -> ClientSet) {
    if let Reason::Recovering { to_report } | Reason::ReportsMissing { to_report } = reason {
        *to_report = change(*to_report);
    }
}

fn on_wait(reason: &mut Reason, change: impl FnOnce(&mut Waiting)) {
    if let Reason::OpenWaits(waiting) = reason {
        change(waiting);
    }
}

/// The lines at which opens of this file had to wait, the latest first.
fn waits(lines: &Lines, of: usize) -> impl Iterator<Item = u64> {
    lines.before().filter_map(move |(number, line)| match line.told {
        Told::Waits { opening, .. } if opening.file == of => Some(number),
        _ => None,
    })
}

fn step_of(lines: &Lines) -> Option<Step> {
    lines.this().step
}
