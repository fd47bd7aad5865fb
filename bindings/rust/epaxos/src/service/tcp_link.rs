//! Links over TCP.
use crate::parts::connect_fault::ConnectFault;
use crate::parts::ends::Ends;
use crate::parts::happened::Happened;
use crate::parts::link::Link as _;
use crate::parts::mac::Guard;
use crate::parts::place::{MOST_REPLICAS, Place};
use crate::parts::sealed::Magic;
use crate::parts::tcp_receiver::TcpReceiver;
use crate::parts::tcp_sender::TcpSender;
use crate::service::inbox::Came;
use crate::service::{Inbox, Key, Link};
use std::collections::BTreeMap;
use std::io::{self, ErrorKind};
use std::net::{SocketAddr, TcpListener, TcpStream, ToSocketAddrs};
use std::sync::{Arc, Mutex, MutexGuard, PoisonError};
use std::thread::{self, JoinHandle};
use std::time::Duration;

/// How long a link that is dropped takes at most to free its address.
const PATIENCE: Duration = Duration::from_secs(2);

/// Links over TCP: a connection to each peer, and one from each. Without a [key](TcpLink::seal) whoever reaches the
/// address is taken for the peer that it says it is. Nothing is hidden: for that take a tunnel. Where a
/// [wish](super::Service::wish) has named another address for a peer, that one counts, after each start too.
///
/// ```
/// use epaxos::service::TcpLink;
///
/// let link = TcpLink::new(0, &["127.0.0.1:0", "10.0.0.2:7000", "10.0.0.3:7000"])?;
/// # drop(link);
/// # Ok::<(), std::io::Error>(())
/// ```
pub struct TcpLink {
    me: u8,
    key: Key,
    listener: TcpListener,
    addresses: Vec<SocketAddr>,
    begun: Option<Begun>,
}

/// What a link has once it has begun.
struct Begun {
    near: Arc<Near>,
    receiver: Arc<TcpReceiver<Near>>,
    accepting: JoinHandle<()>,
}

/// The ends here.
struct Near {
    me: u8,
    key: Key,
    inbox: Inbox,
    peers: Mutex<BTreeMap<u8, Arc<TcpSender<Near>>>>,
}

impl Near {
    fn peers(&self) -> MutexGuard<'_, BTreeMap<u8, Arc<TcpSender<Near>>>> {
        self.peers.lock().unwrap_or_else(PoisonError::into_inner)
    }

    /// Begins to send a peer what is for it.
    fn begin(self: &Arc<Self>, peer: u8, address: String) -> io::Result<()> {
        let sender = TcpSender::start(peer, address, self.clone())?;
        self.peers().insert(peer, sender);
        Ok(())
    }
}

/// Whoever has the key is the peer that it says it is.
impl Ends for Near {
    type Mac = Guard;
    type Who = ();
    const MAGIC: Magic = *b"EPTK\x02";
    const OF_KEYS: &'static str = "";

    fn place(&self) -> Place {
        Place { replicas: MOST_REPLICAS.into(), replica: self.me }
    }

    fn key(&self) -> &Key {
        &self.key
    }

    fn greeting(&self) -> Vec<u8> {
        Vec::new()
    }

    fn judge(&self, _: u8, _: &[u8]) -> Result<(), ConnectFault> {
        Ok(())
    }

    fn answer(&self, _: u8, _: &[u8]) -> io::Result<Option<(Vec<u8>, Option<()>)>> {
        Ok(Some((Vec::new(), Some(()))))
    }

    fn takes(&self, _: u8, (): ()) -> bool {
        true
    }

    fn happen(&self, what: Happened) -> bool {
        let came = match what {
            Happened::Reached(peer) => Came::Opened(peer),
            Happened::Lost(peer) => Came::Lost(peer),
            Happened::Called(peer) => {
                let sender = self.peers().get(&peer).cloned();
                sender.into_iter().filter(|it| !it.is_reached()).for_each(|it| it.hurry());
                return true;
            }
            Happened::Came(from, bytes) => Came::From(from, bytes),
        };
        self.inbox.0.send(came).is_ok()
    }
}

impl std::fmt::Debug for TcpLink {
    fn fmt(&self, f: &mut std::fmt::Formatter) -> std::fmt::Result {
        f.debug_struct("TcpLink").field("me", &self.me).field("listener", &self.listener).finish_non_exhaustive()
    }
}

impl TcpLink {
    /// Those of the replica of this number, among replicas at these addresses: it listens at its own.
    ///
    /// # Errors
    ///
    /// The system's, as where the address is in use, with the address; `InvalidInput` where there is no such replica.
    ///
    /// ```
    /// use epaxos::service::TcpLink;
    ///
    /// let fault = TcpLink::new(3, &["127.0.0.1:0"; 3]).unwrap_err();
    /// assert_eq!(fault.to_string(), "there is no replica 3: 3 addresses are told");
    /// let listener = std::net::TcpListener::bind("127.0.0.1:0")?;
    /// let taken = listener.local_addr()?;
    /// let fault = TcpLink::new(0, &[taken; 3]).unwrap_err();
    /// assert!(fault.to_string().starts_with(&format!("can't listen at {taken}: ")));
    /// # Ok::<(), std::io::Error>(())
    /// ```
    pub fn new(me: u8, addresses: &[impl ToSocketAddrs]) -> io::Result<TcpLink> {
        let mut all = Vec::new();
        for address in addresses {
            all.push(address.to_socket_addrs()?.next().ok_or(ErrorKind::InvalidInput)?);
        }
        let none = || format!("there is no replica {me}: {} addresses are told", all.len());
        let own = *all.get(usize::from(me)).ok_or_else(|| io::Error::new(ErrorKind::InvalidInput, none()))?;
        let listener = TcpListener::bind(own)
            .map_err(|error| io::Error::new(error.kind(), format!("can't listen at {own}: {error}")))?;
        Ok(TcpLink { me, key: Key::none(), listener, addresses: all, begun: None })
    }

    /// The same links of replicas that share a key: each end proves that it has it, and each message that it is the
    /// next one of that end. What was changed, left out or said by somebody else isn't taken, and ends the connection.
    ///
    /// ```
    /// use epaxos::service::{Key, TcpLink};
    ///
    /// # let path = std::env::temp_dir().join(format!("epaxos-key-{}", std::process::id()));
    /// # std::fs::write(&path, "0123456789abcdef0123456789abcdef")?;
    /// # #[cfg(unix)]
    /// # std::fs::set_permissions(&path, std::os::unix::fs::PermissionsExt::from_mode(0o600))?;
    /// let mut link = TcpLink::new(0, &["127.0.0.1:0", "10.0.0.2:7000", "10.0.0.3:7000"])?;
    /// link.seal(Key::read(&path)?);
    /// # drop(link);
    /// # std::fs::remove_file(&path)?;
    /// # Ok::<(), Box<dyn std::error::Error>>(())
    /// ```
    pub fn seal(&mut self, key: Key) {
        self.key = key;
    }
}

impl Link for TcpLink {
    fn start(&mut self, inbox: Inbox) -> io::Result<()> {
        let (me, key) = (self.me, self.key.clone());
        let near = Arc::new(Near { me, key, inbox, peers: Mutex::default() });
        for (peer, address) in (0..).zip(std::mem::take(&mut self.addresses)).filter(|(peer, _)| *peer != me) {
            near.begin(peer, address.to_string())?;
        }
        let (listener, receiver) = (self.listener.try_clone()?, Arc::new(TcpReceiver::new(near.clone())));
        let served = receiver.clone();
        let accepting = thread::Builder::new().name("accept".into()).spawn(move || served.listen(&listener))?;
        self.begun = Some(Begun { near, receiver, accepting });
        Ok(())
    }

    fn send(&mut self, to: u8, bytes: Vec<u8>) {
        self.send_several(to, vec![bytes]);
    }

    fn send_several(&mut self, to: u8, all: Vec<Vec<u8>>) {
        if let Some(peer) = self.begun.as_ref().and_then(|it| it.near.peers().get(&to).cloned()) {
            peer.send_several(all);
        }
    }

    fn set_address(&mut self, peer: u8, address: String) {
        let Some(Begun { near, .. }) = self.begun.as_ref().filter(|_| peer != self.me) else { return };
        let there = near.peers().get(&peer).cloned();
        match there {
            Some(there) => there.set_address(&address),
            // (without a thread nothing is sent there, as to a machine that is down)
            None => _ = near.begin(peer, address),
        }
    }
}

impl Drop for TcpLink {
    /// The address is free then: a connection to itself ends the wait for others.
    fn drop(&mut self) {
        let Some(Begun { near, receiver, accepting }) = self.begun.take() else { return };
        std::mem::take(&mut *near.peers()).into_values().for_each(|peer| peer.end());
        receiver.end();
        let woken = self.listener.local_addr().and_then(|own| TcpStream::connect_timeout(&own, PATIENCE));
        if woken.is_ok() {
            let _ = accepting.join();
        }
    }
}
