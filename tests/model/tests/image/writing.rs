//! "The server shall be written into a lent buffer as sections in a fixed order, each after its count of two bytes, low
//! byte first."

use model::generate::Rng;
use model::images::{full, written};
use model::{Callbacks, ClientField, LONGEST_IMAGE, Mode, Record, Refusal, Service, Settings, VersionField, WaitField};

use crate::made::{after, whole_case};

const WHOLE_CASE: [u8; 34] = [
    8, 32, 4, // sizes
    0, 2, // store
    1, 0, 3, 2, 0, 0, 0, 255, // files
    1, 0, 1, 3, 1, 0, 1, // opens
    1, 0, 3, 0, 77, 0, 0, 0, 0, 0, 0, 0, // blocks
    0, 0, // embargoes
];

#[test]
fn the_whole_case_up_to_line_6() {
    assert_eq!(written(&whole_case()).as_deref(), Ok(&WHOLE_CASE[..]));
}

#[test]
fn a_fresh_service_lists_nothing() {
    assert_eq!(written(&Service::fresh()), Ok(vec![8, 32, 4, 0, 2, 0, 0, 0, 0, 0, 0, 0, 0]));
    assert_eq!(written(&after(&["SET 3 64 8"])), Ok(vec![3, 64, 8, 0, 2, 0, 0, 0, 0, 0, 0, 0, 0]));
    assert_eq!(written(&after(&["SET 3 64 8 257"])), Ok(vec![3, 64, 8, 1, 1, 0, 0, 0, 0, 0, 0, 0, 0]));
}

/// "By file and then station"; "files and blocks ascend"; "version in four bytes low first", "value in eight".
#[test]
fn entries_stand_in_order_and_low_byte_first() {
    let mut service =
        after(&["SET 3 5 2", "OR 2 1", "OR 1 1", "OR 0 4", "OW 2 0", "WR 2 0 1 258", "FL 2 0 1", "WR 2 0 0 1"]);
    service.server.entries[4].version = VersionField(0x0403_0201);
    service.server.entries[4].blocks[0] = 0x0807_0605_0403_0201;
    service.server.entries[4].used[0] = true;
    let image = [
        &[3, 5, 2, 0, 2][..],
        &[2, 0, 0, 2, 0, 0, 0, 255, 4, 1, 2, 3, 4, 255],
        &[4, 0, 2, 0, 0, 1, 1, 1, 1, 1, 0, 1, 2, 1, 1, 0, 1, 0, 4, 1, 0, 1],
        &[2, 0, 0, 1, 2, 1, 0, 0, 0, 0, 0, 0, 4, 0, 1, 2, 3, 4, 5, 6, 7, 8],
        &[0, 0],
    ];
    assert_eq!(written(&service), Ok(image.concat()));
}

/// "A last section of embargoed stations, ascending" (Wish 9), whatever the order in which they were put there.
#[test]
fn embargoes_are_listed_last() {
    let aside = ["SET 3 1 1", "OR 2 0", "OR 0 0", "OW 1 0", "EM 2 0", "EM 0 0"];
    let image =
        [&[3, 1, 1, 0, 2, 1, 0, 0, 2, 0, 0, 0, 255][..], &[1, 0, 1, 0, 0, 1, 1], &[0, 0], &[2, 0, 0, 2]].concat();
    assert_eq!(written(&after(&aside)), Ok(image.clone()));
    let lifted = after(&[&aside[..], &["LF 0"]].concat());
    assert_eq!(written(&lifted), Ok([&image[..image.len() - 4], &[1, 0, 2]].concat()));
}

/// A version of 0 reads as 1, and a client field that is no client in force as none: "for each file not at version 1
/// without last writer".
#[test]
fn files_are_listed_as_their_fields_read() {
    let listed = |version, last_writer| {
        let mut service = Service::fresh_of(Settings { clients: 3, files: 1, blocks: 1, store: 512 });
        let entry = &mut service.server.entries[0];
        (entry.version, entry.last_writer) = (VersionField(version), ClientField(last_writer));
        let image = written(&service).expect("it is written");
        image[7..image.len() - 6].to_vec()
    };
    for none in [3, 7, 8, 254, 255] {
        assert!(listed(0, none).is_empty() && listed(1, none).is_empty());
        assert_eq!(listed(2, none), [0, 2, 0, 0, 0, 255]);
    }
    for stored in [0, 1] {
        assert_eq!(listed(stored, 2), [0, 1, 0, 0, 0, 2]);
    }
    assert_eq!(listed(u32::MAX, 0), [0, 255, 255, 255, 255, 0]);
}

/// "For each open station", by the server's records: permission alone opens nothing.
#[test]
fn opens_are_the_servers() {
    let mut service = Service::fresh_of(Settings { clients: 2, files: 1, blocks: 1, store: 512 });
    service.server.entries[0].records[0] = Record { may_cache: true, ..Record::default() };
    service.clients[1].files[0].record = Record { readers: 1, writers: 1, may_cache: true };
    assert_eq!(written(&service), Ok(vec![2, 1, 1, 0, 2, 0, 0, 0, 0, 0, 0, 0, 0]));
    service.server.entries[0].records[1] = Record { readers: 0, writers: 255, may_cache: false };
    assert_eq!(written(&service), Ok(vec![2, 1, 1, 0, 2, 0, 0, 1, 0, 1, 0, 0, 255, 0, 0, 0, 0, 0]));
}

/// "The image lists used blocks in place of non-zero ones" (Wish 13): a zero block that a write has reached, and not one
/// that is dirty in a copy.
#[test]
fn used_blocks_are_listed() {
    let lines = ["SET 2 1 3 9", "OW 0 0", "WR 0 0 1 0", "WR 0 0 2 5", "FL 0 0 1"];
    let image = [
        &[2, 1, 3, 9, 0][..],
        &[1, 0, 0, 2, 0, 0, 0, 255],
        &[1, 0, 0, 0, 0, 1, 1],
        &[1, 0, 0, 1, 0, 0, 0, 0, 0, 0, 0, 0],
        &[0, 0],
    ];
    assert_eq!(written(&after(&lines)), Ok(image.concat()));
    let mut service = after(&lines);
    service.server.entries[0].blocks[0] = 7;
    assert_eq!(written(&service), Ok(image.concat()));
}

/// "What lies past them isn't there"; sizes out of range are "each as not given".
#[test]
fn what_lies_past_the_sizes_is_not_listed() {
    let mut service = full(&mut Rng::new(0));
    for (sizes, front, files, opens, blocks) in [
        ([1, 1, 1], [1, 1, 1], 1, 1, 1),
        ([3, 5, 2], [3, 5, 2], 5, 15, 10),
        ([0, 65, 9], [8, 32, 4], 32, 256, 128),
        ([8, 64, 8], [8, 64, 8], 64, 512, 512),
    ] {
        let [clients, files_set, blocks_set] = sizes;
        service.settings = Settings { clients, files: files_set, blocks: blocks_set, store: 513 };
        let image = written(&service).expect("it is written");
        assert_eq!((&image[..3], &image[3..5]), (&front[..], &[0, 2][..]));
        let embargoed = usize::from(front[0]);
        assert_eq!(image.len(), 3 + 2 + 2 + 6 * files + 2 + 5 * opens + 2 + 10 * blocks + 2 + embargoed);
        assert_eq!(usize::from(image[5]) + 256 * usize::from(image[6]), files);
        let at = 7 + 6 * files;
        assert_eq!(usize::from(image[at]) + 256 * usize::from(image[at + 1]), opens);
    }
    assert_eq!(written(&service).map(|image| image.len()), Ok(LONGEST_IMAGE));
    assert_eq!(LONGEST_IMAGE, 8_085);
    service.settings = Settings::NOT_GIVEN;
    assert_eq!(written(&service).map(|image| image.len()), Ok(2_773));
}

/// "The length is told and bytes past it stay." "16 when the buffer is too short", and then the whole buffer stays.
#[test]
fn the_buffer_is_written_as_far_as_the_length() {
    let service = whole_case();
    for room in 0..WHOLE_CASE.len() + 40 {
        let mut buffer = vec![0xaa; room];
        if room < WHOLE_CASE.len() {
            assert_eq!(service.write_image(&mut buffer), Err(Refusal::BufferTooShort));
            assert_eq!(buffer, vec![0xaa; room]);
        } else {
            assert_eq!(service.write_image(&mut buffer), Ok(WHOLE_CASE.len()));
            assert_eq!(buffer, [&WHOLE_CASE[..], &vec![0xaa; room - WHOLE_CASE.len()]].concat());
        }
    }
}

/// The refusal of writing into an empty buffer and into one with room, which must stay.
fn refused(service: &Service) -> [Option<usize>; 2] {
    [0, LONGEST_IMAGE].map(|room| {
        let mut buffer = vec![0xaa; room];
        let refusal = service.write_image(&mut buffer).err();
        assert!(refusal.is_none() || buffer == vec![0xaa; room]);
        refusal.map(Refusal::number)
    })
}

/// "Writing tests 5, 15, 16", the lowest first.
#[test]
fn writing_tests_5_then_15_then_16() {
    assert_eq!(refused(&whole_case()), [Some(16), None]);
    let mut waiting = after(&["OW 0 0", "OR 1 0"]);
    assert_eq!(refused(&waiting), [Some(15), Some(15)]);
    waiting.server.recovering = true;
    assert_eq!(refused(&waiting), [Some(5), Some(5)]);
    assert_eq!(refused(&after(&["XX"])), [Some(5), Some(5)]);
    assert_eq!(refused(&after(&["OW 0 0", "OR 1 0", "AN 0 0"])), [Some(16), None]);
}

/// "15 when an open waits": one that reads as an open that waits, in a file that is there.
#[test]
fn a_wait_that_is_none_does_not_refuse() {
    let with_wait = |file: usize, opener| {
        let mut service = Service::fresh_of(Settings { clients: 3, files: 2, blocks: 1, store: 512 });
        let callbacks = Callbacks([0, 1, 0, 0, 0, 0, 0, 0]);
        service.server.entries[file].waiting = WaitField { opener: ClientField(opener), mode: Mode::Read, callbacks };
        refused(&service)[1]
    };
    assert_eq!((with_wait(0, 2), with_wait(1, 0)), (Some(15), Some(15)));
    assert_eq!((with_wait(0, 3), with_wait(1, 255), with_wait(2, 0)), (None, None, None));
    // Nobody is left to reply, and the open waits all the same.
    let mut service = Service::fresh();
    service.server.entries[31].waiting.opener = ClientField(7);
    assert_eq!(refused(&service)[1], Some(15));
}
