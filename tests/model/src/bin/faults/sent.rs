//! Faults of the number of blocks that an answer tells (document 02, Wish 5).

use model::{Kind, Service, Settings, Sizes};

use crate::fault::rule_faults;

/// How many blocks of a file a client holds, dirty or clean.
fn held(service: &Service, client: usize, file: usize) -> usize {
    service.clients[client].files[file].copies.held.iter().filter(|&&held| held).count()
}

rule_faults! {
    blocks_counted_after_they_were_cleaned {
        fn blocks_sent(service: &Service, client: usize, file: usize, kind: Kind) -> usize {
            let (mut answered, mut blocks) = (service.clients[client].files[file].clone(), [0; 8]);
            answered.answer(service.sizes(), kind, &mut blocks);
            answered.copies.count_dirty(service.sizes())
        }
    }
    held_blocks_told {
        fn blocks_sent(service: &Service, client: usize, file: usize, kind: Kind) -> usize {
            if kind.writes_back() { held(service, client, file) } else { 0 }
        }
    }
    invalidation_tells_held_blocks {
        fn blocks_sent(service: &Service, client: usize, file: usize, kind: Kind) -> usize {
            let sent = service.blocks_to_send(client, file, kind);
            if kind == Kind::Invalidate { held(service, client, file) } else { sent }
        }
    }
    both_kinds_at_once_tell_nothing {
        fn blocks_sent(service: &Service, client: usize, file: usize, kind: Kind) -> usize {
            if kind == Kind::Both { 0 } else { service.blocks_to_send(client, file, kind) }
        }
    }
    write_back_alone_tells_nothing {
        fn blocks_sent(service: &Service, client: usize, file: usize, kind: Kind) -> usize {
            if kind == Kind::WriteBack { 0 } else { service.blocks_to_send(client, file, kind) }
        }
    }
    /// Whether data was moved, not how much.
    several_blocks_told_as_one {
        fn blocks_sent(service: &Service, client: usize, file: usize, kind: Kind) -> usize {
            service.blocks_to_send(client, file, kind).min(1)
        }
    }
    write_back_tells_every_block_of_the_file {
        fn blocks_sent(service: &Service, _client: usize, _file: usize, kind: Kind) -> usize {
            if kind.writes_back() { service.sizes().blocks } else { 0 }
        }
    }
    write_back_tells_one_block_at_least {
        fn blocks_sent(service: &Service, client: usize, file: usize, kind: Kind) -> usize {
            let sent = service.blocks_to_send(client, file, kind);
            if kind.writes_back() { sent.max(1) } else { sent }
        }
    }
    kind_told_instead_of_blocks {
        fn blocks_sent(_service: &Service, _client: usize, _file: usize, kind: Kind) -> usize {
            kind as usize
        }
    }
    dirty_blocks_of_other_files_told {
        fn blocks_sent(service: &Service, client: usize, _file: usize, kind: Kind) -> usize {
            (0..service.sizes().files).map(|file| service.blocks_to_send(client, file, kind)).sum()
        }
    }
    openers_dirty_blocks_told {
        fn blocks_sent(service: &Service, client: usize, file: usize, kind: Kind) -> usize {
            let opener = service.server.entries[file].waiting.read(service.sizes()).map_or(client, |open| open.opener);
            service.blocks_to_send(opener, file, kind)
        }
    }
    four_blocks_told_at_most {
        fn blocks_sent(service: &Service, client: usize, file: usize, kind: Kind) -> usize {
            service.blocks_to_send(client, file, kind).min(Settings::NOT_GIVEN.blocks as usize)
        }
    }
    first_four_blocks_alone_told {
        fn blocks_sent(service: &Service, client: usize, file: usize, kind: Kind) -> usize {
            let sizes = service.sizes();
            let four = Sizes { blocks: sizes.blocks.min(Settings::NOT_GIVEN.blocks as usize), ..sizes };
            if kind.writes_back() { service.clients[client].files[file].copies.count_dirty(four) } else { 0 }
        }
    }
    /// Another client has a dirty block of the file only under embargo.
    dirty_blocks_of_other_clients_told {
        fn blocks_sent(service: &Service, _client: usize, file: usize, kind: Kind) -> usize {
            (0..service.sizes().clients).map(|client| service.blocks_to_send(client, file, kind)).sum()
        }
    }
}
