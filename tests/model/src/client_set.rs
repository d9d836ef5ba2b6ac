//! Sets of clients, one bit each.

use crate::CLIENTS;

#[derive(Clone, Copy, PartialEq, Eq, Debug, Default)]
pub struct ClientSet(u8);

impl ClientSet {
    pub const NONE: ClientSet = ClientSet(0);
    pub const ALL: ClientSet = ClientSet(u8::MAX);

    pub fn only(client: usize) -> Self {
        ClientSet(1 << client)
    }

    /// The first so many.
    pub fn first(count: usize) -> Self {
        ClientSet(((1u16 << count) - 1) as u8)
    }

    /// Those of whom this holds.
    pub fn of(has: impl Fn(usize) -> bool) -> Self {
        let with = |set: ClientSet, client| if has(client) { set.with(client) } else { set };
        (0..CLIENTS).fold(ClientSet::NONE, with)
    }

    pub fn contains(self, client: usize) -> bool {
        self.0 >> client & 1 != 0
    }

    pub fn with(self, client: usize) -> Self {
        ClientSet(self.0 | 1 << client)
    }

    pub fn without(self, client: usize) -> Self {
        ClientSet(self.0 & !(1 << client))
    }

    pub fn and(self, other: Self) -> Self {
        ClientSet(self.0 & other.0)
    }

    pub fn or(self, other: Self) -> Self {
        ClientSet(self.0 | other.0)
    }

    pub fn minus(self, other: Self) -> Self {
        ClientSet(self.0 & !other.0)
    }

    pub fn is_empty(self) -> bool {
        self.0 == 0
    }

    /// The only member, if there is exactly one.
    pub fn single(self) -> Option<usize> {
        self.0.is_power_of_two().then(|| self.0.trailing_zeros() as usize)
    }

    /// The members in ascending order.
    pub fn members(self) -> impl Iterator<Item = usize> {
        (0..CLIENTS).filter(move |&client| self.contains(client))
    }
}
