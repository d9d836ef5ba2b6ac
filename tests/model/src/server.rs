//! The server: an entry for each file, and how far a recovery has come.

use crate::{ClientSet, Entry, FILES, PLACES, Sizes};

#[derive(Clone, PartialEq, Eq, Debug)]
pub struct Server {
    pub entries: [Entry; FILES],
    pub recovering: bool,
    /// The clients that have reported since the latest crash.
    pub reported: ClientSet,
    /// The clients under embargo (document 02, Wish 9). A crash leaves them.
    pub embargoed: ClientSet,
    /// The free places of the store (document 02, Wish 13), counted up and down. More than the store has read as all.
    pub free: usize,
}

impl Server {
    pub fn fresh() -> Self {
        Server {
            entries: std::array::from_fn(|_| Entry::fresh()),
            recovering: false,
            reported: ClientSet::NONE,
            embargoed: ClientSet::NONE,
            free: PLACES,
        }
    }

    pub fn crash(&mut self, sizes: Sizes) {
        self.entries[..sizes.files].iter_mut().for_each(|entry| entry.crash(sizes));
        self.recovering = true;
        self.forget_reports(sizes);
        self.free_but_used(sizes);
    }

    pub fn end(&mut self, sizes: Sizes) {
        self.recovering = false;
        self.forget_reports(sizes);
    }

    /// "During recovery the restart stands as an empty report" (document 02, Wish 8), and so does a lift (Wish 9).
    pub fn count_as_reported(&mut self, client: usize) {
        if self.recovering {
            self.reported = self.reported.with(client);
        }
    }

    fn forget_reports(&mut self, sizes: Sizes) {
        self.reported = self.reported.minus(sizes.client_set());
    }

    /// The clients that have still to report: "recovery doesn't wait for" those under embargo (document 02, Wish 9).
    pub fn reports_missing(&self, sizes: Sizes) -> ClientSet {
        sizes.client_set().minus(self.reported).minus(self.embargoed)
    }

    pub fn put_under_embargo(&mut self, client: usize) {
        self.embargoed = self.embargoed.with(client);
    }

    pub fn end_embargo(&mut self, client: usize) {
        self.embargoed = self.embargoed.without(client);
    }

    /// The embargoes of the clients in force are these; what lies past them stays.
    pub fn set_embargoes(&mut self, sizes: Sizes, embargoed: ClientSet) {
        let past = self.embargoed.minus(sizes.client_set());
        self.embargoed = embargoed.and(sizes.client_set()).or(past);
    }
}
