//! Where what comes goes.
use super::promise::Promise;
use super::watcher::Wish as WatchWish;
use crate::host::{Identity, Member, Status, Told, Wish};
use crate::{Checkpoint, OwnedCommand};
use std::sync::mpsc::Sender;

/// Who takes part, and who waits to be let in.
pub(super) type Taking = (Vec<Member>, Vec<(u8, Identity)>);

/// What comes to a host's thread.
pub(super) enum Came {
    Opened(u8),
    Lost(u8),
    From(u8, Vec<u8>),
    Call(OwnedCommand, Promise<Told>),
    Read(Vec<u8>, Promise<Told>),
    ReadHere(Option<Vec<u8>>, Promise<Told>),
    Status(Promise<Status>),
    Watch(WatchWish),
    Wish(Wish, Promise<Told>),
    Members(Promise<Taking>),
    Written(u32, [u8; 32], u64),
    NotWritten(u32),
    Part(u32, u64, (u64, Vec<u8>)),
    LetGo(u32, Checkpoint),
    Gathered(u64, Option<Vec<u8>>),
    Followed(u32, Option<Vec<u8>>),
    /// It is to end once what is under way is done,
    Stop,
    /// or at once.
    End,
}

/// Where a [link](super::Link) puts what comes. Copies are for other threads; once the host has ended what is put there
/// is dropped.
///
/// ```
/// use epaxos::service::Inbox;
/// /// Hands in datagrams of one peer, until there are no more.
/// fn receive(inbox: &Inbox, peer: u8, mut next: impl FnMut() -> Option<Vec<u8>>) {
///     inbox.opened(peer);
///     while next().is_some_and(|bytes| inbox.came(peer, bytes)) {}
///     inbox.lost(peer);
/// }
/// ```
#[derive(Clone)]
pub struct Inbox(pub(super) Sender<Came>);

impl std::fmt::Debug for Inbox {
    fn fmt(&self, f: &mut std::fmt::Formatter) -> std::fmt::Result {
        f.debug_struct("Inbox").finish_non_exhaustive()
    }
}

impl Inbox {
    /// A link to a peer was opened: what is sent from now on may arrive.
    ///
    /// ```
    /// fn accept(inbox: &epaxos::service::Inbox, peer: u8) {
    ///     inbox.opened(peer);
    /// }
    /// ```
    pub fn opened(&self, peer: u8) {
        let _ = self.0.send(Came::Opened(peer));
    }

    /// It is over.
    ///
    /// ```
    /// fn close(inbox: &epaxos::service::Inbox, peer: u8) {
    ///     inbox.lost(peer);
    /// }
    /// ```
    pub fn lost(&self, peer: u8) {
        let _ = self.0.send(Came::Lost(peer));
    }

    /// Something has come from a peer: whether the host is still there.
    ///
    /// ```
    /// /// Hands in what has come, until the host has ended.
    /// fn hand_in(inbox: &epaxos::service::Inbox, peer: u8, mut all: impl Iterator<Item = Vec<u8>>) {
    ///     let _ = all.all(|bytes| inbox.came(peer, bytes));
    /// }
    /// ```
    pub fn came(&self, peer: u8, bytes: Vec<u8>) -> bool {
        self.0.send(Came::From(peer, bytes)).is_ok()
    }
}
