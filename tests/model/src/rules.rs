//! The seams at which the fault study replaces one rule by a wrong one. The plain model takes every default.

use crate::{
    Admission, BLOCKS, Callbacks, ClientFile, Entry, Grant, GrantedOpen, Kind, Mode, Outcome, Refusal, Server, Service,
    Settings, Sizes, Step, WaitingOpen,
};

pub trait Rules {
    /// A first line SET.
    fn set(service: &mut Service, settings: Settings) -> Outcome {
        service.set(settings)
    }
    /// A line SET that is not the first; the stream player takes it for no step without asking.
    fn late_set(_service: &mut Service, _settings: Settings) -> Outcome {
        Outcome::Refused(Refusal::NotAStep)
    }
    /// How many files the summary looks at.
    fn files_in_summary(sizes: Sizes) -> usize {
        sizes.files
    }

    fn may_open(service: &Service, mode: Mode, client: u64, file: u64) -> Admission {
        service.may_open(mode, client, file)
    }
    fn may_close(service: &Service, mode: Mode, client: u64, file: u64) -> Admission {
        service.may_close(mode, client, file)
    }
    fn may_read(service: &Service, client: u64, file: u64, block: u64) -> Admission {
        service.may_read(client, file, block)
    }
    fn may_write(service: &Service, client: u64, file: u64, block: u64) -> Admission {
        service.may_write(client, file, block)
    }
    fn may_flush(service: &Service, client: u64, file: u64, block: u64) -> Admission {
        service.may_flush(client, file, block)
    }
    fn may_reply(service: &Service, client: u64, file: u64) -> Result<Kind, Refusal> {
        service.may_reply(client, file)
    }
    fn may_report(service: &Service, client: u64) -> Admission {
        service.may_report(client)
    }
    fn may_end(service: &Service) -> Admission {
        service.may_end()
    }
    fn may_restart(service: &Service, client: u64) -> Admission {
        service.may_restart(client)
    }
    fn may_embargo(service: &Service, client: u64, file: u64) -> Admission {
        service.may_embargo(client, file)
    }
    fn may_lift(service: &Service, client: u64) -> Admission {
        service.may_lift(client)
    }

    fn callbacks_due(sizes: Sizes, entry: &Entry, opener: usize, mode: Mode) -> Callbacks {
        entry.callbacks_due(sizes, opener, mode)
    }
    fn wait(sizes: Sizes, entry: &mut Entry, waiting: WaitingOpen) {
        entry.wait(sizes, waiting);
    }
    fn permission_at_grant(sizes: Sizes, entry: &Entry, opener: usize, mode: Mode) -> bool {
        entry.permission_at_grant(sizes, opener, mode)
    }
    fn grant_at_server(entry: &mut Entry, opener: usize, mode: Mode, may_cache: bool) -> Grant {
        entry.grant(opener, mode, may_cache)
    }
    fn grant_at_client(sizes: Sizes, file: &mut ClientFile, mode: Mode, grant: &Grant) {
        file.grant(sizes, mode, grant);
    }
    /// Whether a client that closes a file has a dirty block of it.
    fn dirty_at_close(service: &Service, client: usize, file: usize) -> bool {
        service.any_dirty(client, file)
    }
    fn close_at_server(entry: &mut Entry, client: usize, mode: Mode, dirty: bool) {
        entry.close(client, mode, dirty);
    }
    fn close_at_client(file: &mut ClientFile, mode: Mode, dirty: bool) {
        file.close(mode, dirty);
    }

    fn read(file: &mut ClientFile, block: usize, server: &[u64; BLOCKS]) -> u64 {
        file.read(block, server)
    }
    fn write(file: &mut ClientFile, block: usize, value: u64, server: &mut [u64; BLOCKS]) {
        file.write(block, value, server);
    }
    /// After an accepted write of a client under embargo; the server's blocks are those of the file.
    fn wrote_under_embargo(_server: &mut [u64; BLOCKS], _block: usize, _value: u64) {}
    fn flush(file: &mut ClientFile, block: usize, server: &mut [u64; BLOCKS]) {
        file.flush(block, server);
    }
    /// Whether a flush has left its client a dirty block of the file.
    fn dirty_after_flush(service: &Service, client: usize, file: usize) -> bool {
        service.any_dirty(client, file)
    }
    fn flushed_at_server(entry: &mut Entry, client: usize, dirty: bool) {
        entry.flushed(client, dirty);
    }
    fn flushed_at_client(file: &mut ClientFile, dirty: bool) {
        file.flushed(dirty);
    }
    /// The number of blocks that a callback reply tells, asked for just before it.
    fn blocks_sent(service: &Service, client: usize, file: usize, kind: Kind) -> usize {
        service.blocks_to_send(client, file, kind)
    }
    fn answer_at_client(sizes: Sizes, file: &mut ClientFile, kind: Kind, server: &mut [u64; BLOCKS]) {
        file.answer(sizes, kind, server);
    }
    fn answer_at_server(entry: &mut Entry, client: usize, kind: Kind) {
        entry.callback_answered(client, kind);
    }

    fn crash(service: &mut Service) {
        service.server.crash(service.sizes());
    }
    /// After a report that is refused.
    fn report_refused(_service: &mut Service, _client: u64, _refusal: Refusal) {}
    fn report(entry: &mut Entry, client: usize, file: &ClientFile) {
        entry.report(client, file.record, file.last_writer_flag);
    }
    fn end(sizes: Sizes, server: &mut Server) {
        server.end(sizes);
    }

    /// Gives the open of another that the restart grants on this file.
    fn restart_at_server(sizes: Sizes, server: &mut Server, file: usize, client: usize) -> Option<WaitingOpen> {
        server.entries[file].restart(sizes, client)
    }
    /// The server's blocks are those of the file.
    fn restart_at_client(sizes: Sizes, file: &mut ClientFile, _server: &mut [u64; BLOCKS]) {
        file.restart(sizes);
    }
    fn restart_reports(server: &mut Server, client: usize) {
        server.count_as_reported(client);
    }
    /// "A restart lifts too."
    fn restart_lifts(server: &mut Server, client: usize) {
        server.end_embargo(client);
    }

    /// "The server forgets it as in Wish 8": gives the open of another that the embargo grants on this file. The step
    /// names `of`.
    fn embargo_at_server(
        sizes: Sizes,
        server: &mut Server,
        file: usize,
        client: usize,
        _of: usize,
    ) -> Option<WaitingOpen> {
        server.entries[file].restart(sizes, client)
    }
    /// "But the station doesn't know." The server's blocks are those of the file.
    fn embargo_at_client(_sizes: Sizes, _file: &mut ClientFile, _server: &mut [u64; BLOCKS]) {}
    fn put_under_embargo(server: &mut Server, client: usize) {
        server.put_under_embargo(client);
    }
    /// "Prints A 0, then grants as BT does."
    fn embargo_answer(granted: Vec<GrantedOpen>) -> Outcome {
        Outcome::Embargoed { granted }
    }

    /// "Telling it drops all it holds, counts too." The server's blocks are those of the file.
    fn lift_at_client(sizes: Sizes, file: &mut ClientFile, _server: &mut [u64; BLOCKS]) {
        file.restart(sizes);
    }
    fn lift_reports(server: &mut Server, client: usize) {
        server.count_as_reported(client);
    }
    fn end_embargo(server: &mut Server, client: usize) {
        server.end_embargo(client);
    }

    /// Of an accepted write (document 02, Wish 13).
    fn takes_place(service: &Service, client: usize, file: usize, block: usize) -> bool {
        service.takes_place(client, file, block)
    }
    fn take_place(sizes: Sizes, server: &mut Server) {
        server.take_place(sizes);
    }
    fn used_by_write(entry: &mut Entry, block: usize) {
        entry.used[block] = true;
    }
    fn used_by_flush(_sizes: Sizes, server: &mut Server, file: usize, block: usize) {
        server.entries[file].used[block] = true;
    }
    fn used_by_reply(entry: &mut Entry, block: usize) {
        entry.used[block] = true;
    }
    fn places_held(service: &Service) -> usize {
        service.places_held()
    }
    fn places_held_in(service: &Service, file: usize) -> usize {
        service.places_held_in(file)
    }
    /// After an open, a reply, a report, a restart and an embargo: the places held before the step, and after it.
    fn settle(service: &mut Service, _step: &Step, before: usize, after: usize) {
        service.server.settle(service.sizes(), before, after);
    }
    /// Its places were freed at the embargo.
    fn freed_by_lift(_service: &mut Service, _client: usize) {}
}

/// The rules as document 01 and the wishes of document 02 that have landed give them.
pub struct Document01;

impl Rules for Document01 {}

/// The same rules, compiled apart: the player's are inlined where they have no second caller. What both call is marked
/// for that.
pub(crate) struct Apart;

impl Rules for Apart {}
