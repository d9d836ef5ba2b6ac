//! Faults of the settings: lines SET that are taken wrongly, and rules that go by other sizes.

use model::{
    Admission, BLOCKS, CLIENTS, ClientFile, ClientSet, FILES, Grant, Kind, Mode, Outcome, PLACES, Refusal, Service,
    Settings, Sizes,
};

use crate::door::sparing;
use crate::fault::rule_faults;

const NOT_A_STEP: Outcome = Outcome::Refused(Refusal::NotAStep);
const OUT_OF_RANGE: Outcome = Outcome::Refused(Refusal::SettingOutOfRange);

/// Files and blocks where no settings are given.
const USUAL_FILES: u64 = Settings::NOT_GIVEN.files;
const USUAL_BLOCKS: usize = Settings::NOT_GIVEN.blocks as usize;

/// The line SET taken rightly, but with each setting changed before.
fn set_changed(service: &mut Service, settings: Settings, change: impl Fn(u64, u64, u64) -> u64) -> Outcome {
    let usual = Settings::NOT_GIVEN;
    service.set(Settings {
        clients: change(settings.clients, CLIENTS as u64, usual.clients),
        files: change(settings.files, FILES as u64, usual.files),
        blocks: change(settings.blocks, BLOCKS as u64, usual.blocks),
        ..settings
    })
}

/// The answer as it is, but with 32 files in the place of the settings.
fn by_32_files(answer: Admission, file: u64) -> Admission {
    match answer {
        Ok(()) if file >= USUAL_FILES => Err(Refusal::NoSuchFile),
        answer => sparing(answer, Refusal::NoSuchFile, || file < USUAL_FILES),
    }
}

/// The answer as it is, but with 4 blocks in the place of the settings.
fn by_4_blocks(answer: Admission, block: u64) -> Admission {
    match answer {
        Ok(()) if block >= USUAL_BLOCKS as u64 => Err(Refusal::NoSuchBlock),
        answer => sparing(answer, Refusal::NoSuchBlock, || block < USUAL_BLOCKS as u64),
    }
}

rule_faults! {
    set_accepted_on_a_later_line {
        fn late_set(service: &mut Service, settings: Settings) -> Outcome {
            service.set(settings)
        }
    }
    set_accepted_while_nothing_has_changed {
        fn late_set(service: &mut Service, settings: Settings) -> Outcome {
            if *service == Service::fresh() { service.set(settings) } else { NOT_A_STEP }
        }
    }
    late_set_answered_but_not_taken {
        fn late_set(_service: &mut Service, _settings: Settings) -> Outcome {
            Outcome::Done
        }
    }
    out_of_range_told_of_a_late_set {
        fn late_set(_service: &mut Service, settings: Settings) -> Outcome {
            if settings.are_in_range() { NOT_A_STEP } else { OUT_OF_RANGE }
        }
    }
    set_is_no_step_on_the_first_line {
        fn set(_service: &mut Service, _settings: Settings) -> Outcome {
            NOT_A_STEP
        }
    }
    set_answered_but_not_taken {
        fn set(_service: &mut Service, settings: Settings) -> Outcome {
            if settings.are_in_range() { Outcome::Done } else { OUT_OF_RANGE }
        }
    }
    no_step_told_of_a_setting_out_of_range {
        fn set(service: &mut Service, settings: Settings) -> Outcome {
            match service.set(settings) {
                Outcome::Refused(_) => NOT_A_STEP,
                outcome => outcome,
            }
        }
    }
    /// The settings in range stay, and the others are as not given.
    settings_take_effect_before_they_are_refused {
        fn set(service: &mut Service, settings: Settings) -> Outcome {
            let outcome = service.set(settings);
            service.settings = settings;
            outcome
        }
    }
    refused_set_leaves_the_largest_sizes {
        fn set(service: &mut Service, settings: Settings) -> Outcome {
            let outcome = service.set(settings);
            if outcome == OUT_OF_RANGE {
                set_changed(service, settings, |_, largest, _| largest);
            }
            outcome
        }
    }
    setting_of_0_taken_as_not_given {
        fn set(service: &mut Service, settings: Settings) -> Outcome {
            set_changed(service, settings, |setting, _, usual| if setting == 0 { usual } else { setting })
        }
    }
    setting_out_of_range_taken_as_not_given {
        fn set(service: &mut Service, settings: Settings) -> Outcome {
            set_changed(service, settings, |setting, largest, usual| {
                if (1..=largest).contains(&setting) { setting } else { usual }
            })
        }
    }
    setting_too_large_taken_as_the_largest {
        fn set(service: &mut Service, settings: Settings) -> Outcome {
            set_changed(service, settings, |setting, largest, _| setting.min(largest))
        }
    }
    setting_cut_to_32_bits {
        fn set(service: &mut Service, settings: Settings) -> Outcome {
            set_changed(service, settings, |setting, _, _| setting & u64::from(u32::MAX))
        }
    }
    settings_above_the_usual_refused {
        fn set(service: &mut Service, settings: Settings) -> Outcome {
            set_changed(service, settings, |setting, _, usual| if setting > usual { 0 } else { setting })
        }
    }
    files_and_blocks_exchanged {
        fn set(service: &mut Service, settings: Settings) -> Outcome {
            let outcome = service.set(settings);
            if outcome == Outcome::Done {
                service.settings = Settings { files: settings.blocks, blocks: settings.files, ..settings };
            }
            outcome
        }
    }

    // The size of the store (document 02, Wish 13).
    store_setting_answered_but_not_taken {
        fn set(service: &mut Service, settings: Settings) -> Outcome {
            let outcome = service.set(settings);
            service.settings.store = PLACES as u64;
            outcome
        }
    }
    store_of_0_refused {
        fn set(service: &mut Service, settings: Settings) -> Outcome {
            if settings.store == 0 { OUT_OF_RANGE } else { service.set(settings) }
        }
    }
    store_of_0_taken_as_not_given {
        fn set(service: &mut Service, settings: Settings) -> Outcome {
            service.set(Settings { store: if settings.store == 0 { PLACES as u64 } else { settings.store }, ..settings })
        }
    }
    store_too_large_taken_as_the_largest {
        fn set(service: &mut Service, settings: Settings) -> Outcome {
            service.set(Settings { store: settings.store.min(PLACES as u64), ..settings })
        }
    }
    store_cut_to_8_bits {
        fn set(service: &mut Service, settings: Settings) -> Outcome {
            service.set(Settings { store: settings.store & u64::from(u8::MAX), ..settings })
        }
    }
    store_cut_to_the_blocks_that_there_are {
        fn set(service: &mut Service, settings: Settings) -> Outcome {
            let outcome = service.set(settings);
            let Sizes { files, blocks, .. } = service.sizes();
            service.settings.store = service.settings.store.min((files * blocks - 1) as u64);
            outcome
        }
    }
    four_settings_are_no_step {
        fn set(service: &mut Service, settings: Settings) -> Outcome {
            if settings.store == Settings::NOT_GIVEN.store { service.set(settings) } else { NOT_A_STEP }
        }
    }

    client_tested_by_8 {
        fn may_open(service: &Service, mode: Mode, client: u64, file: u64) -> Admission {
            let known = || client < CLIENTS as u64 && file < service.sizes().files as u64;
            sparing(service.may_open(mode, client, file), Refusal::NoSuchClient, known)
        }
    }
    client_tested_by_8_at_report {
        fn may_report(service: &Service, client: u64) -> Admission {
            let known = || client < CLIENTS as u64 && service.server.recovering;
            sparing(service.may_report(client), Refusal::NoSuchClient, known)
        }
    }
    file_tested_by_32 {
        fn may_open(service: &Service, mode: Mode, client: u64, file: u64) -> Admission {
            by_32_files(service.may_open(mode, client, file), file)
        }
    }
    block_tested_by_4_at_read {
        fn may_read(service: &Service, client: u64, file: u64, block: u64) -> Admission {
            by_4_blocks(service.may_read(client, file, block), block)
        }
    }
    block_tested_by_4_at_write {
        fn may_write(service: &Service, client: u64, file: u64, block: u64) -> Admission {
            by_4_blocks(service.may_write(client, file, block), block)
        }
    }
    eight_reports_asked_for {
        fn may_end(service: &Service) -> Admission {
            service.may_end()?;
            if service.server.reported == ClientSet::ALL { Ok(()) } else { Err(Refusal::ReportsMissing) }
        }
    }
    crash_reaches_32_files_only {
        fn crash(service: &mut Service) {
            let sizes = service.sizes();
            service.server.crash(Sizes { files: sizes.files.min(USUAL_FILES as usize), ..sizes });
        }
    }
    write_back_sends_four_blocks_only {
        fn answer_at_client(sizes: Sizes, file: &mut ClientFile, kind: Kind, server: &mut [u64; BLOCKS]) {
            if kind.writes_back() {
                file.copies.dirty[USUAL_BLOCKS..].fill(false);
            }
            file.answer(sizes, kind, server);
        }
    }
    grant_drops_four_blocks_only {
        fn grant_at_client(sizes: Sizes, file: &mut ClientFile, mode: Mode, grant: &Grant) {
            file.grant(Sizes { blocks: sizes.blocks.min(USUAL_BLOCKS), ..sizes }, mode, grant);
        }
    }
    summary_lists_32_files_only {
        fn files_in_summary(sizes: Sizes) -> usize {
            sizes.files.min(USUAL_FILES as usize)
        }
    }
}
