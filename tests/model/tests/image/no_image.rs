//! "17 when the bytes are no image": each reason by itself, on an image that is accepted without it; and that nothing
//! else is asked of an image.

use model::{Refusal, Service, Settings};

use crate::made::{Entries, SMALL, SMALL_STORE};

fn read(bytes: &[u8]) -> Result<(), Refusal> {
    let [clients, files, blocks] = SMALL.map(u64::from);
    Service::fresh_of(Settings { clients, files, blocks, store: SMALL_STORE.into() }).read_image(bytes)
}

/// The image with this change in its entries.
fn with(change: impl FnOnce(&mut Entries)) -> Result<(), Refusal> {
    let mut entries = Entries::small();
    change(&mut entries);
    read(&entries.bytes())
}

const NO_IMAGE: Result<(), Refusal> = Err(Refusal::NoImage);

#[test]
fn the_image_itself_is_accepted() {
    assert_eq!(with(|_| {}), Ok(()));
    assert_eq!(read(&[3, 4, 2, 5, 0, 0, 0, 0, 0, 0, 0, 0, 0]), Ok(()));
}

/// "Other sizes get 17", also where every entry would fit.
#[test]
fn other_sizes() {
    for sizes in [[2, 4, 2], [4, 4, 2], [3, 3, 2], [3, 5, 2], [3, 4, 1], [3, 4, 3], [8, 32, 4], [0, 4, 2], [4, 3, 2]] {
        assert_eq!(with(|image| image.sizes = sizes), NO_IMAGE, "{sizes:?}");
        assert_eq!(read(&[&sizes[..], &[5, 0], &[0; 8]].concat()), NO_IMAGE, "{sizes:?}");
    }
}

/// Another size of the store, or one that no store has (Wish 13).
#[test]
fn another_store() {
    for store in (0..=u16::MAX).filter(|&store| store != SMALL_STORE) {
        assert_eq!(with(|image| image.store = store), NO_IMAGE, "{store}");
    }
    let usual = |store: u16| Service::fresh().read_image(&[&[8, 32, 4][..], &store.to_le_bytes(), &[0; 8]].concat());
    assert_eq!((usual(512), usual(513), usual(2), usual(0)), (Ok(()), NO_IMAGE, NO_IMAGE, NO_IMAGE));
}

/// "The image lists used blocks in place of non-zero ones": a zero one is no reason, nor are more than the store has.
#[test]
fn zero_blocks_and_more_than_the_store() {
    assert_eq!(with(|image| image.blocks[1].2 = 0), Ok(()));
    let every = |image: &mut Entries| image.blocks = (0..8).map(|at| (at / 2, at % 2, u64::from(at % 3))).collect();
    assert_eq!(with(every), Ok(()));
}

#[test]
fn a_version_of_0() {
    assert_eq!(with(|image| image.files[0].1 = 0), NO_IMAGE);
    assert_eq!(with(|image| image.files[1].1 = 0), NO_IMAGE);
}

/// "For each file not at version 1 without last writer": such a file is not listed.
#[test]
fn a_file_at_version_1_without_last_writer() {
    assert_eq!(with(|image| image.files[1].2 = 255), NO_IMAGE);
    assert_eq!(with(|image| image.files[1] = (3, 256, 255)), Ok(()));
}

#[test]
fn a_last_writer_that_is_neither_client_nor_255() {
    for last_writer in 3..255 {
        assert_eq!(with(|image| image.files[0].2 = last_writer), NO_IMAGE);
    }
    for last_writer in [0, 1, 2, 255] {
        assert_eq!(with(|image| image.files[0].2 = last_writer), Ok(()));
    }
}

#[test]
fn a_file_twice_or_descending() {
    assert_eq!(with(|image| image.files[1].0 = 1), NO_IMAGE);
    assert_eq!(with(|image| image.files[1].0 = 0), NO_IMAGE);
    assert_eq!(with(|image| image.files.swap(0, 1)), NO_IMAGE);
    assert_eq!(with(|image| image.files.push((2, 2, 255))), NO_IMAGE);
    assert_eq!(with(|image| image.files.insert(1, (2, 2, 255))), Ok(()));
}

#[test]
fn a_number_out_of_range() {
    for past in 4..=255 {
        assert_eq!(with(|image| image.files[1].0 = past), NO_IMAGE);
        assert_eq!(with(|image| image.opens[2][1] = past), NO_IMAGE);
        assert_eq!(with(|image| image.blocks[2].0 = past), NO_IMAGE);
    }
    for past in 3..=255 {
        assert_eq!(with(|image| image.opens[2][0] = past), NO_IMAGE);
        assert_eq!(with(|image| image.embargoed[1] = past), NO_IMAGE);
    }
    for past in 2..=255 {
        assert_eq!(with(|image| image.blocks[2].1 = past), NO_IMAGE);
    }
}

#[test]
fn an_open_with_both_counts_0() {
    assert_eq!(with(|image| image.opens[0] = [0, 1, 0, 0, 1]), NO_IMAGE);
    assert_eq!(with(|image| image.opens[0] = [0, 1, 0, 0, 0]), NO_IMAGE);
}

#[test]
fn a_permission_above_1() {
    for permission in 2..=255 {
        assert_eq!(with(|image| image.opens[0][4] = permission), NO_IMAGE);
    }
    assert_eq!(with(|image| image.opens[0][4] = 0), Ok(()));
}

/// "By file and then station."
#[test]
fn an_open_twice_or_out_of_order() {
    assert_eq!(with(|image| image.opens.swap(0, 1)), NO_IMAGE);
    assert_eq!(with(|image| image.opens.swap(1, 2)), NO_IMAGE);
    assert_eq!(with(|image| image.opens[1] = image.opens[0]), NO_IMAGE);
    assert_eq!(with(|image| image.opens[2][1] = 0), NO_IMAGE);
    assert_eq!(with(|image| image.opens.insert(1, [1, 1, 9, 9, 0])), Ok(()));
    assert_eq!(with(|image| image.opens.insert(0, [2, 0, 9, 9, 0])), Ok(()));
}

#[test]
fn a_block_twice_or_out_of_order() {
    assert_eq!(with(|image| image.blocks.swap(0, 1)), NO_IMAGE);
    assert_eq!(with(|image| image.blocks[1] = image.blocks[0]), NO_IMAGE);
    assert_eq!(with(|image| image.blocks[1] = (0, 0, 1)), NO_IMAGE);
    assert_eq!(with(|image| image.blocks.insert(0, (0, 0, 1))), Ok(()));
}

/// "Embargoed stations, ascending" (Wish 9).
#[test]
fn an_embargo_twice_or_descending() {
    assert_eq!(with(|image| image.embargoed.swap(0, 1)), NO_IMAGE);
    assert_eq!(with(|image| image.embargoed = vec![1, 1]), NO_IMAGE);
    assert_eq!(with(|image| image.embargoed = vec![0, 1, 2, 2]), NO_IMAGE);
    assert_eq!(with(|image| image.embargoed = vec![0, 2, 1]), NO_IMAGE);
    assert_eq!(with(|image| image.embargoed.insert(1, 1)), Ok(()));
    assert_eq!(with(|image| image.embargoed = vec![2]), Ok(()));
    assert_eq!(with(|image| image.embargoed.clear()), Ok(()));
}

/// The image as it was before Wish 9.
#[test]
fn an_image_without_its_last_section() {
    let bytes = Entries::small().bytes();
    assert_eq!(read(&bytes[..bytes.len() - 4]), NO_IMAGE);
    assert_eq!(read(&[3, 4, 2, 5, 0, 0, 0, 0, 0, 0, 0]), NO_IMAGE);
}

/// The image as it was before Wish 13.
#[test]
fn an_image_without_its_store() {
    let bytes = Entries::small().bytes();
    assert_eq!(read(&[&bytes[..3], &bytes[5..]].concat()), NO_IMAGE);
    assert_eq!(read(&[3, 4, 2, 0, 0, 0, 0, 0, 0, 0, 0]), NO_IMAGE);
}

/// The places of the four counts in the small image.
const COUNTS: [usize; 4] = [5, 19, 36, 68];

#[test]
fn a_count_that_the_bytes_do_not_bear_out() {
    let bytes = Entries::small().bytes();
    for (place, count) in COUNTS.into_iter().zip([2, 3, 3, 2]) {
        assert_eq!(bytes[place..place + 2], [count, 0]);
        for wrong in (0..=u16::MAX).filter(|&wrong| wrong != count.into()) {
            let mut bytes = bytes.clone();
            bytes[place..place + 2].copy_from_slice(&wrong.to_le_bytes());
            assert_eq!(read(&bytes), NO_IMAGE, "{place} {wrong}");
        }
    }
}

#[test]
fn bytes_missing_or_left_over() {
    let bytes = Entries::small().bytes();
    for length in 0..bytes.len() {
        assert_eq!(read(&bytes[..length]), NO_IMAGE);
    }
    for more in [&[0][..], &[255], &[0, 0], &[3, 1, 1, 0, 0, 0, 0, 0, 0, 0]] {
        assert_eq!(with(|image| image.more = more), NO_IMAGE);
    }
    assert_eq!(read(&[]), NO_IMAGE);
}

/// "Hand-made ones included": there is no consistency between the sections, nor by any rule of document 01.
#[test]
fn nothing_is_asked_between_sections() {
    // Open with writers and permission at three clients, one of them the last writer, in a file at version 1.
    let everybody = |image: &mut Entries| {
        image.files = vec![(0, 1, 1)];
        image.opens = vec![[0, 0, 0, 255, 1], [1, 0, 255, 1, 1], [2, 0, 1, 1, 1]];
        image.blocks = vec![(0, 0, 1), (0, 1, 1), (3, 0, 1), (3, 1, 1)];
    };
    assert_eq!(with(everybody), Ok(()));
    assert_eq!(with(|image| image.files.clear()), Ok(()));
    assert_eq!(with(|image| image.opens.clear()), Ok(()));
    assert_eq!(with(|image| image.blocks.clear()), Ok(()));
    // A client under embargo may be listed as open and as last writer.
    assert_eq!(with(|image| image.embargoed = vec![0, 1, 2]), Ok(()));
    assert_eq!(with(|image| image.files[0].1 = u32::MAX), Ok(()));
}
