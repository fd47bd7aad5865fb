//! One replica of the store.
use epaxos::Cluster;
use epaxos::host::{Host, HostFault, Member, Settings, StartFault};
use epaxos::service::{Disk, Folder};
use signal_hook::consts::{SIGINT, SIGTERM};
use signal_hook::iterator::Signals;
use std::fmt;
use std::io::{self, Write};
use std::net::TcpListener;
use std::path::Path;
use std::process::ExitCode;
use std::sync::Arc;
use std::sync::atomic::AtomicU64;
use std::sync::mpsc::{SyncSender, sync_channel};
use std::thread;
use std::time::{Duration, Instant};
use store::client::clients::{self, Shared};
use store::client::memory::Memory;
use store::client::password::Password;
use store::client::replies::Due;
use store::core::asks::Asks;
use store::core::event::Event;
use store::core::expiring::Expiring;
use store::core::keys::Keys;
use store::core::listing::Listing;
use store::core::plants::Plant;
use store::core::serving::{Parts, Serving};
use store::core::sweep;
use store::life::directory::Directory;
use store::life::directory_fault::DirectoryFault;
use store::life::identities::{Identities, Identity};
use store::life::identities_fault::IdentitiesFault;
use store::life::recovery;
use store::life::starts::{self, is_of};
use store::life::starts_fault::StartsFault;
use store::life::stop_fault::StopFault;
use store::life::sum::SUMS;
use store::opening::Opening;
use store::ops::admin::{self, Operators};
use store::ops::metrics::{self, Metrics};
use store::ops::notify;
use store::ops::options::{self, Options, Words, help, read};
use store::ops::options_fault::OptionsFault;
use store::ops::say::{error, name, say, warn};
use store::peer::peers::{MOST_REPLICAS, Membership, Near, Peers, TcpReceiver};
use store::peer::sealed::{Key, KeyFault};
use store::peer::seen::Seen;
use store::peer::twice::Start;
use store::random::Random;
use store::receipts::Receipts;
use store::receipts_fault::ReceiptsFault;

/// The host takes no more for the numbers after which a generation ends.
const MOST_NUMBERS: u16 = 8_890;
/// How many events may wait for the thread that serves.
const WAITING_EVENTS: usize = 4_096;

fn main() -> ExitCode {
    let words = words();
    if let Ok([first, words @ ..]) = words.as_deref()
        && first == "recover"
    {
        return recovery::main(words.iter().cloned());
    }
    let options = match words.and_then(read) {
        Ok(Words::Help) => {
            // Where standard output is closed nobody reads it.
            let _ = std::io::stdout().write_all(help().as_bytes());
            return ExitCode::SUCCESS;
        }
        Ok(Words::Version) => {
            let _ = std::io::stdout().write_all(concat!("store ", env!("CARGO_PKG_VERSION"), "\n").as_bytes());
            return ExitCode::SUCCESS;
        }
        Ok(Words::Run(options)) => *options,
        Err(fault) => {
            error(&fault.to_string());
            return ExitCode::from(2);
        }
    };
    name(options.replica);
    let admin = options.admin.clone();
    let due = Arc::<Due>::default();
    let fault = match start(options, due.clone()) {
        Ok(driver) => StoreFault::Stop(driver.run()),
        Err(fault) => fault,
    };
    match fault {
        StoreFault::Stop(StopFault::Asked) => say(&fault.to_string()),
        _ => error(&fault.to_string()),
    }
    if let StoreFault::Stop(_) = fault {
        notify::stopping();
        // Replies are on their way to clients.
        due.end(LAST_REPLIES);
        admin.remove();
    }
    ExitCode::from(fault.status())
}

/// How long the last replies may take on their way.
const LAST_REPLIES: Duration = Duration::from_secs(3);

/// Why the store ends.
enum StoreFault {
    Directory(DirectoryFault),
    Identities(IdentitiesFault),
    Starts(StartsFault),
    Start(StartFault),
    /// A file of the folder can't be used.
    File(io::Error),
    Stop(StopFault),
    Key(KeyFault),
    /// Neither `--peers` nor a seal says where this replica is.
    NoAddress(usize),
    /// Others could reach the peers' port at this address, and there is no key.
    Unguarded(String),
    /// It can't listen at this address.
    Listen(String, io::Error),
    /// It can't listen there for operators.
    Admin(String, io::Error),
    Receipts(ReceiptsFault),
    Thread(io::Error),
}

/// It may be started again with the same words.
const PASSING: u8 = 1;
/// It must not come back with this folder, or needs a hand.
const LASTING: u8 = 3;
/// The folder is an older copy: another machine has to take the number.
const OLDER: u8 = 4;
/// Another process with the replica's number and identity runs too.
const TWICE: u8 = 5;

impl StoreFault {
    fn status(&self) -> u8 {
        let is_lasting = match self {
            StoreFault::Stop(StopFault::Asked) => return 0,
            StoreFault::Stop(stop) if stop.is_older() => return OLDER,
            StoreFault::Stop(StopFault::Twice(_)) => return TWICE,
            StoreFault::Directory(fault) => fault.is_lasting(),
            StoreFault::Identities(_)
            | StoreFault::Starts(_)
            | StoreFault::Key(_)
            | StoreFault::Unguarded(_)
            | StoreFault::NoAddress(_) => true,
            StoreFault::Start(StartFault::Disk(_)) | StoreFault::File(_) => false,
            StoreFault::Start(StartFault::Folder(fault)) => fault.is_lasting(),
            StoreFault::Start(_) => true,
            StoreFault::Stop(stop) => stop.is_lasting(),
            // (a path that is too long, or that something else has)
            StoreFault::Admin(_, error) => {
                matches!(error.kind(), io::ErrorKind::InvalidInput | io::ErrorKind::AlreadyExists)
            }
            StoreFault::Listen(..) | StoreFault::Receipts(_) | StoreFault::Thread(_) => false,
        };
        if is_lasting { LASTING } else { PASSING }
    }
}

impl fmt::Display for StoreFault {
    fn fmt(&self, f: &mut fmt::Formatter) -> fmt::Result {
        match self {
            StoreFault::Directory(fault) => fault.fmt(f),
            StoreFault::Identities(fault) => fault.fmt(f),
            StoreFault::Starts(fault) => fault.fmt(f),
            StoreFault::Start(fault) => fault.fmt(f),
            StoreFault::File(error) => error.fmt(f),
            StoreFault::Stop(stop) => stop.fmt(f),
            StoreFault::Key(fault) => fault.fmt(f),
            StoreFault::NoAddress(replica) => write!(f, "neither --peers nor a seal says where replica {replica} is"),
            StoreFault::Unguarded(address) => write!(
                f,
                "others could send to the peers' port at {address}: give all replicas one key by --peer-key, or say --insecure where the \
                 network keeps strangers out"
            ),
            StoreFault::Listen(address, error) => write!(f, "can't listen at {address}: {error}"),
            StoreFault::Admin(place, error) => {
                write!(f, "can't listen at {place}: {error}; --admin names another place")
            }
            StoreFault::Receipts(fault) => fault.fmt(f),
            StoreFault::Thread(error) => write!(f, "a thread can't be started: {error}"),
        }
    }
}

/// The words after the program's name.
fn words() -> Result<Vec<String>, OptionsFault> {
    std::env::args_os().skip(1).map(|word| word.into_string().map_err(OptionsFault::NotText)).collect()
}

fn start(options: Options, due: Arc<Due>) -> Result<Serving, StoreFault> {
    let replica = options.replica;
    let own = &options.peers[usize::from(replica)];
    let key = options.peer_key.as_deref().map(Key::read).transpose().map_err(StoreFault::Key)?;
    let for_peers = bind(own)?;
    if key.is_none() && !options.is_insecure && !is_local(&for_peers) {
        return Err(StoreFault::Unguarded(own.clone()));
    }
    let for_clients = bind(&options.listen)?;
    let directory = Directory::open(&options.directory).map_err(StoreFault::Directory)?;
    let is_forgetful = options.plant == Some(Plant::Forgetful);
    let joins = options.start == options::Start::Join && directory.begin_joining().map_err(StoreFault::Directory)?;
    if !is_forgetful && !joins {
        directory.check_files().map_err(StoreFault::Directory)?;
        directory.check_begin(options.start == options::Start::New).map_err(StoreFault::Directory)?;
    }
    directory.prepare().map_err(StoreFault::Directory)?;
    let for_operators = options.admin.bind().map_err(|error| StoreFault::Admin(options.admin.to_string(), error))?;
    let (sender, events) = sync_channel(WAITING_EVENTS);
    let metrics = Arc::<Metrics>::default();
    let asks = Asks::new(sender.clone(), options.patience);
    let shared = Shared {
        keys: Keys::start(asks.clone(), metrics.clone()).map_err(StoreFault::Thread)?,
        listing: Arc::new(Listing::new(sender.clone(), options.patience)),
        patience: options.patience,
        password: password(options.auth.as_deref())?,
        operators: options.admin.to_string(),
        memory: Memory::new(options.memory),
        metrics: metrics.clone(),
        connections: Arc::default(),
        due,
        served: AtomicU64::new(0),
        started: Instant::now(),
    };
    if let Some(address) = &options.metrics {
        let (listener, metrics) = (bind(address)?, metrics.clone());
        spawn("metrics", move || metrics::listen(listener, &metrics)).map_err(StoreFault::Thread)?;
    }
    end_by_signals(sender.clone()).map_err(StoreFault::Thread)?;
    let identities = Identities::open(&options.directory, MOST_REPLICAS, replica).map_err(StoreFault::Identities)?;
    let mut disk = Folder::open(directory.generations()).map_err(StoreFault::File)?;
    let newest = directory.newest().unwrap_or(1);
    let mut receipts = open_receipts(&directory, newest)?;
    starts::prepare(&directory.generations(), &disk, receipts.named.client).map_err(StoreFault::Starts)?;
    let mut host = begin(&options, &directory, &disk, (identities.own(), joins))?;
    (0..MOST_REPLICAS as u8).for_each(|peer| identities.of(peer).into_iter().for_each(|it| host.know(peer, it)));
    let expiring = Expiring::default();
    host.observe(Box::new(expiring.clone()));
    let seen = Seen::open(directory.path(), &mut host);
    // Who is here is connected once what it begins with is on the disk: from now on a folder without a log has lost it.
    let generation = host.generation();
    if !joins {
        if generation != newest {
            receipts = open_receipts(&directory, generation)?;
        }
        begin_on_disk(&mut host, &mut disk).map_err(StoreFault::Stop)?;
        let _ = std::fs::remove_file(directory.whole());
        if !is_forgetful {
            let checked = directory.check_entries(generation, host.status().entries, receipts.named.entry);
            checked.map_err(StoreFault::Directory)?;
        }
    }
    identities.keep().map_err(StoreFault::Identities)?;
    if !joins {
        directory.end_joining().map_err(StoreFault::Directory)?;
    }
    let addresses = if joins { options.peers.clone() } else { addresses(&options, &host)? };
    let place = (replica, addresses.len() as u8);
    let (key, start) = (key.unwrap_or_else(Key::none), Start::now().map_err(StoreFault::File)?);
    let membership = Arc::new(Membership::new(place, identities, key, start, joins));
    let near = Arc::new(Near { membership: membership.clone(), events: sender.clone() });
    let peers = Peers::start(&near, &addresses).map_err(StoreFault::Thread)?;
    let receiver = Arc::new(TcpReceiver::new(near));
    spawn("peers", move || receiver.listen(&for_peers)).map_err(StoreFault::Thread)?;
    let password_of_operators = password(options.admin_auth.as_deref())?;
    let (patience, due) = (shared.patience, shared.due.clone());
    let operators = Operators::new(sender.clone(), patience, password_of_operators, due, membership.clone());
    let (operators, shared) = (Arc::new(operators), Arc::new(shared));
    let (listing, keys, swept) = (shared.listing.clone(), shared.keys.clone(), shared.metrics.clone());
    if options.plant == Some(Plant::Passes) {
        keys.let_reads_pass();
    }
    spawn("sweep", move || sweep::sweep(&listing, &keys, &swept)).map_err(StoreFault::Thread)?;
    spawn("operators", move || admin::listen(&for_operators, &operators)).map_err(StoreFault::Thread)?;
    spawn("clients", move || clients::listen(for_clients, shared)).map_err(StoreFault::Thread)?;
    let place = format!("clients at {}, peers at {own}, process {}", options.listen, std::process::id());
    if host.cut() > 0 {
        let cut = host.cut();
        warn(&format!("the core tells: log cut: {cut} bytes behind its last record were no whole one"));
    }
    let (own, plant) = (sender, options.plant);
    let serving = Serving::new(Parts {
        host,
        disk,
        peers,
        directory,
        membership,
        receipts,
        seen,
        expiring,
        events,
        asks,
        own,
        metrics,
        plant,
        place,
    });
    serving.report_start();
    Ok(serving)
}

/// The host of a folder, as it is begun: for the first time, by an opening that recovery has made, by what is there, or in
/// the place of a lost machine. Nothing of it is on the disk yet.
fn begin(
    options: &Options,
    directory: &Directory,
    disk: &Folder,
    (identity, joins): (Identity, bool),
) -> Result<Host, StoreFault> {
    let (settings, now) = (settings(options, identity)?, Instant::now());
    if joins {
        return Host::join(&settings, disk, now).map_err(StoreFault::Start);
    }
    if options.start == options::Start::New {
        return Host::begin(&settings, disk, now).map_err(StoreFault::Start);
    }
    let whole = directory.whole();
    if whole.exists() {
        let front = Opening::read_front_of(&whole).map_err(StoreFault::File)?;
        check_place(options, front.generation, front.replicas)?;
        let bytes = std::fs::read(&whole).map_err(StoreFault::File)?;
        match Host::take(&settings, disk, &bytes, now).map_err(StoreFault::Start) {
            // (one that is refused is of no use; any other fault may pass)
            Err(fault) if fault.status() == LASTING => _ = std::fs::remove_file(&whole),
            taken => return taken,
        }
    }
    if let Some((generation, replicas)) = directory.newest_size().map_err(StoreFault::Directory)? {
        check_place(options, generation, replicas)?;
    }
    Host::open(&settings, disk, now).map_err(StoreFault::Start)
}

/// How the host goes about, by the options.
fn settings(options: &Options, identity: Identity) -> Result<Settings, StoreFault> {
    let cluster = Cluster::try_from(options.peers.len() as u8);
    let cluster = cluster.map_err(|_| StoreFault::Start(StartFault::OutOfRange))?;
    Ok(Settings {
        identity: Some(identity),
        seed: Random::new().below(u64::MAX),
        numbers: options.limits.numbers.min(MOST_NUMBERS),
        dependencies: options.limits.dependencies,
        log: options.limits.log,
        checkpoint: options.checkpoint,
        patience: options.patience,
        together: if options.plant.is_some() { 1 } else { options.together },
        most_map: options.most_map,
        most: usize::MAX,
        kept: options.kept as u32,
        sums: SUMS,
        plant: options.plant.and_then(Plant::in_host),
        ..Settings::new(cluster, options.replica)
    })
}

/// What a host begins with is on the disk, and how many entries it has is known.
fn begin_on_disk(host: &mut Host, disk: &mut Folder) -> Result<(), StopFault> {
    let Some(writes) = host.turn(Instant::now())?.writes else { return Ok(()) };
    disk.carry_out(&writes.acts).map_err(StopFault::Disk)?;
    Ok(host.synced(writes.number, Instant::now())?)
}

fn open_receipts(directory: &Directory, generation: u32) -> Result<Receipts, StoreFault> {
    Receipts::open(&directory.receipts(generation), is_of).map_err(StoreFault::Receipts)
}

fn password(file: Option<&Path>) -> Result<Option<Password>, StoreFault> {
    file.map(Password::read).transpose().map_err(StoreFault::Key)
}

fn bind(address: &str) -> Result<TcpListener, StoreFault> {
    TcpListener::bind(address).map_err(|error| StoreFault::Listen(address.into(), error))
}

/// SIGTERM and SIGINT have the store end once those who wait were answered; a second one ends it at once.
fn end_by_signals(events: SyncSender<Event>) -> io::Result<()> {
    let mut signals = Signals::new([SIGTERM, SIGINT])?;
    spawn("signals", move || {
        for (count, _) in signals.forever().enumerate() {
            if count > 0 || events.send(Event::End).is_err() {
                std::process::exit(PASSING.into());
            }
        }
    })
}

/// Whether only this machine can reach it.
fn is_local(listener: &TcpListener) -> bool {
    listener.local_addr().is_ok_and(|address| address.ip().is_loopback())
}

fn spawn(name: &str, work: impl FnOnce() + Send + 'static) -> io::Result<()> {
    thread::Builder::new().name(name.into()).spawn(work).map(|_| ())
}

/// Where each replica is, as a seal or `--peers` says.
fn addresses(options: &Options, host: &Host) -> Result<Vec<String>, StoreFault> {
    let address = |(replica, member): (usize, Member)| {
        member.address.or_else(|| options.peers.get(replica).cloned()).ok_or(StoreFault::NoAddress(replica))
    };
    host.members().into_iter().enumerate().map(address).collect()
}

/// Whether this replica is one of so many.
fn check_place(options: &Options, generation: u32, replicas: u8) -> Result<(), StoreFault> {
    let left = StoreFault::Stop(StopFault::Host(HostFault::Left(generation)));
    if options.replica < replicas { Ok(()) } else { Err(left) }
}
