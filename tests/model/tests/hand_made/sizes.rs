//! The sizes in force, read once more and apart from the model, and what lies past them.

use model::{BLOCKS, CLIENTS, ClientSet, FILES, Service, Settings, Sizes};

/// "Stations 1 to 8, files 1 to 64 and blocks 1 to 8"; "without it 8, 32 and 4 hold"; "hand-made ones out of range: each
/// as not given". "A size of 0 to 512 blocks, a fourth setting, 512 if not given."
pub fn in_force(service: &Service) -> Sizes {
    let Settings { clients, files, blocks, store } = service.settings;
    Sizes {
        clients: if clients == 0 || clients > 8 { 8 } else { clients as usize },
        files: if files == 0 || files > 64 { 32 } else { files as usize },
        blocks: if blocks == 0 || blocks > 8 { 4 } else { blocks as usize },
        store: if store > 512 { 512 } else { store as usize },
    }
}

/// The service, but with what lies past its sizes as another has it.
pub fn with_past_of(service: &Service, other: &Service) -> Service {
    let sizes = in_force(service);
    let mut mixed = service.clone();
    for file in 0..FILES {
        let (entry, past) = (&mut mixed.server.entries[file], &other.server.entries[file]);
        if file >= sizes.files {
            *entry = past.clone();
        }
        entry.records[sizes.clients..].copy_from_slice(&past.records[sizes.clients..]);
        entry.waiting.callbacks.0[sizes.clients..].copy_from_slice(&past.waiting.callbacks.0[sizes.clients..]);
        entry.blocks[sizes.blocks..].copy_from_slice(&past.blocks[sizes.blocks..]);
        entry.used[sizes.blocks..].copy_from_slice(&past.used[sizes.blocks..]);
        for client in 0..CLIENTS {
            let (own, past) = (&mut mixed.clients[client].files[file], &other.clients[client].files[file]);
            if file >= sizes.files || client >= sizes.clients {
                *own = past.clone();
            }
            for block in sizes.blocks..BLOCKS {
                own.copies.values[block] = past.copies.values[block];
                own.copies.held[block] = past.copies.held[block];
                own.copies.dirty[block] = past.copies.dirty[block];
            }
        }
    }
    let mix = |own: ClientSet, past: ClientSet| {
        ClientSet::of(|client| if client < sizes.clients { own.contains(client) } else { past.contains(client) })
    };
    mixed.server.reported = mix(service.server.reported, other.server.reported);
    mixed.server.embargoed = mix(service.server.embargoed, other.server.embargoed);
    mixed
}
