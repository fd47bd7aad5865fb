//! The other replicas: the links to them, by TCP ([`TcpSender`]), and who is taken for one.
//!
//! A greeting has the identity of who connects, its process's start, and whether it waits to be let in, or only asks
//! who is here; the answer says whether its frames are taken, and has the identity of who listens, and the start of
//! another process of the same number that was met since, if there is one ([`twice`](crate::peer::twice)).
use crate::connect_fault::ConnectFault;
use crate::core::event::Event;
use crate::life::identities::{Identities, Identity};
use crate::link::Link;
use crate::link_fault::LinkFault;
use crate::ops::say::{say, warn};
use crate::peer::sealed::{Hello, HmacSha256, Key, MAGIC, Magic};
use crate::peer::twice::{Beside, Others, Start, Starts};
use epaxos::parts::ends::Ends;
use epaxos::parts::happened::Happened;
use epaxos::parts::place;
use epaxos::parts::place::Place;
pub use epaxos::parts::tcp_receiver::TcpReceiver;
use epaxos::parts::tcp_sender::{TcpSender, greet};
use std::io;
use std::sync::Arc;
use std::sync::atomic::{AtomicBool, AtomicU8, Ordering};
use std::sync::mpsc::SyncSender;

/// What a greeting may say behind an identity: that the machine waits to be let in, or that it only asks who is here.
const WAITS: u8 = 1;
const ASKS: u8 = 2;
/// And what the answer begins with: another identity is known under this number; frames are taken; or whoever greets
/// isn't one of the replicas.
const REFUSED: u8 = 0;
const ACCEPTED: u8 = 1;
const NOT_LET_IN: u8 = 2;

/// The most replicas that there may be.
pub const MOST_REPLICAS: usize = place::MOST_REPLICAS as usize;

/// What this replica is to the others: its number, whom it knows, the key that all share, and whether it waits to be
/// let in.
pub struct Membership {
    pub replica: u8,
    pub identities: Identities,
    pub key: Key,
    /// Others that have this one's number; and the processes that have greeted this one.
    others: Others,
    starts: Starts,
    waits: AtomicBool,
    /// How many replicas there are now.
    size: AtomicU8,
}

impl Membership {
    /// That of a process which starts so.
    pub fn new((replica, size): (u8, u8), identities: Identities, key: Key, start: Start, waits: bool) -> Membership {
        let (others, starts) = (Others::new(start), Starts::default());
        Membership { replica, identities, key, others, starts, waits: waits.into(), size: size.into() }
    }

    fn size(&self) -> u8 {
        self.size.load(Ordering::Relaxed)
    }

    /// Whether this machine waits until a generation names it.
    pub fn waits(&self) -> bool {
        self.waits.load(Ordering::Relaxed)
    }

    /// It is one of so many replicas. Whether that is new: it was one of another number, or had waited.
    pub fn take_part(&self, size: u8) -> bool {
        let is_resized = self.size.swap(size, Ordering::Relaxed) != size;
        self.waits.swap(false, Ordering::Relaxed) || is_resized
    }

    /// The hello to a peer.
    fn hello(&self, peer: u8) -> io::Result<Hello> {
        Hello::new(MAGIC, [self.size(), self.replica, peer])
    }

    /// What this replica greets by, and says of itself.
    fn greeting(&self, says: &[u8]) -> Vec<u8> {
        [&self.identities.own()[..], &self.others.own().0, says].concat()
    }
}

/// An answer to a greeting: its first byte, who listens, and another start of who has greeted.
fn read_answer(answer: &[u8]) -> Option<(u8, Identity, Option<Start>)> {
    let (first, rest) = answer.split_first()?;
    let (identity, start) = rest.split_first_chunk()?;
    let start = if start.is_empty() { None } else { Some(Start(start.try_into().ok()?)) };
    Some((*first, *identity, start))
}

/// Who listens for its peers at this address, under this number. Nothing comes of the connection.
pub fn who_is_at(membership: &Membership, replica: u8, address: &str) -> Result<Identity, ConnectFault> {
    let (hello, greeting) = (membership.hello(replica)?, membership.greeting(&[ASKS]));
    let (.., answer) = greet(&membership.key, &hello, address, &greeting)?;
    read_answer(&answer).map(|(_, identity, _)| identity).ok_or(ConnectFault::Failed)
}

/// The ends here of the links to all peers, and where what happens goes.
pub struct Near {
    pub membership: Arc<Membership>,
    pub events: SyncSender<Event>,
}

impl Ends for Near {
    type Mac = HmacSha256;
    type Who = Identity;
    const MAGIC: Magic = MAGIC;
    const OF_KEYS: &'static str = " (--peer-key)";

    fn place(&self) -> Place {
        Place { replicas: self.membership.size().into(), replica: self.membership.replica }
    }

    fn key(&self) -> &Key {
        &self.membership.key
    }

    fn greeting(&self) -> Vec<u8> {
        self.membership.greeting(if self.membership.waits() { &[WAITS] } else { &[] })
    }

    fn judge(&self, peer: u8, answer: &[u8]) -> Result<(), ConnectFault> {
        match read_answer(answer).ok_or(ConnectFault::Failed)? {
            (ACCEPTED, identity, other) if self.membership.identities.meet(peer, identity)? => {
                other.map_or(Ok(()), |other| self.hear_of(peer, other))
            }
            (ACCEPTED, ..) => Err(ConnectFault::OtherPeer),
            (NOT_LET_IN, ..) => Err(ConnectFault::NotLetIn),
            _ => Err(ConnectFault::NotKnown),
        }
    }

    fn answer(&self, from: u8, greeting: &[u8]) -> io::Result<Option<(Vec<u8>, Option<Identity>)>> {
        let Some((identity, rest)) = greeting.split_first_chunk() else { return Ok(None) };
        let Some((start, says)) = rest.split_first_chunk() else { return Ok(None) };
        let (identity, membership) = (*identity, &self.membership);
        let answer = match says {
            [ASKS] => ACCEPTED,
            [] if from < membership.size() => {
                if membership.identities.meet(from, identity)? {
                    ACCEPTED
                } else {
                    REFUSED
                }
            }
            [] | [WAITS] => {
                if says == [WAITS] {
                    let _ = self.events.send(Event::Waits(from, identity));
                }
                // (who isn't one of the replicas, by now or yet, is known by a seal alone)
                if membership.identities.of(from) == Some(identity) { ACCEPTED } else { NOT_LET_IN }
            }
            _ => return Ok(None),
        };
        let is_taken = answer == ACCEPTED && says != [ASKS];
        let other = if is_taken { membership.starts.greet(from, Start(*start)) } else { None };
        let other = other.map_or(Vec::new(), |start| start.0.into());
        Ok(Some(([&[answer][..], &membership.identities.own(), &other].concat(), is_taken.then_some(identity))))
    }

    /// (a seal may have named another machine since)
    fn takes(&self, from: u8, identity: Identity) -> bool {
        self.membership.identities.of(from) == Some(identity)
    }

    fn happen(&self, what: Happened) -> bool {
        let event = match what {
            Happened::Reached(peer) => Event::PeerReached(peer),
            Happened::Lost(peer) => Event::PeerLost(peer),
            Happened::Called(peer) => Event::PeerCame(peer),
            Happened::Came(from, bytes) => Event::Came { from, bytes },
        };
        self.events.send(event).is_ok()
    }

    fn log(&self, is_well: bool, line: &str) {
        if is_well { say(line) } else { warn(line) }
    }
}

impl Near {
    /// A peer has met another process of this one's number and identity. Both are told, and the later start ends.
    fn hear_of(&self, peer: u8, other: Start) -> Result<(), ConnectFault> {
        match self.membership.others.hear(other) {
            Beside::GoesOn(true) => warn(&format!(
                "replica {peer} knows another process of this one's number and identity, which was started later, \
                 and is to end: its folder is a copy of this one, and must never be started again"
            )),
            Beside::Ends => {
                let _ = self.events.send(Event::Twice(peer));
                return Err(ConnectFault::Twice);
            }
            Beside::GoesOn(false) | Beside::Waits => {}
        }
        Ok(())
    }
}

/// The ways to all other replicas.
pub struct Peers {
    links: Vec<Option<Arc<TcpSender<Near>>>>,
    near: Arc<Near>,
}

impl Peers {
    /// Starts a thread for each other replica, which connects to it.
    pub fn start(near: &Arc<Near>, addresses: &[String]) -> io::Result<Peers> {
        let mut peers = Peers { links: Vec::new(), near: near.clone() };
        (0..).zip(addresses).try_for_each(|(to, address)| peers.set_address(to, address))?;
        Ok(peers)
    }

    fn link(&self, to: u8) -> Option<&TcpSender<Near>> {
        self.links.get(usize::from(to))?.as_deref()
    }

    /// A replica listens at this address from now on.
    pub fn set_address(&mut self, to: u8, address: &str) -> io::Result<()> {
        let place = usize::from(to);
        match self.link(to) {
            Some(link) => link.set_address(address),
            None if to != self.near.membership.replica => {
                self.links.resize(self.links.len().max(place + 1), None);
                self.links[place] = Some(TcpSender::start(to, address.into(), self.near.clone())?);
            }
            None => {}
        }
        Ok(())
    }

    /// Another machine has this replica's number: the connection to the one before is closed.
    pub fn part(&self, to: u8) {
        if let Some(link) = self.link(to) {
            link.part(LinkFault::Replaced);
        }
    }

    /// The replicas from this number on have left: they aren't connected to any more once they are lost.
    pub fn end_from(&mut self, size: u8) {
        for link in self.links.iter_mut().skip(size.into()) {
            link.take_if(|link| !link.is_reached()).into_iter().for_each(|link| link.end());
        }
    }

    /// A peer has connected: the connection to it is tried at once, where it is lost.
    pub fn hurry(&self, to: u8) {
        if let Some(link) = self.link(to).filter(|link| !link.is_reached()) {
            link.hurry();
        }
    }

    /// Sends frames and messages of this host, or loses them.
    pub fn send_several(&self, to: u8, all: Vec<Vec<u8>>) {
        if let Some(link) = self.link(to) {
            link.send_several(all);
        }
    }

    /// How many frames were lost for want of room.
    pub fn lost(&self) -> u64 {
        self.links.iter().flatten().map(|link| link.lost()).sum()
    }
}
