use super::*;
use crate::parts::mac::Hmac;
use crate::parts::place::Place;
use crate::parts::sealed::Magic;
use crate::parts::tcp_receiver::{LONGEST_FRAME, MOST_STRANGERS, SHORTEST_FRAME, TcpReceiver};
use std::net::TcpListener;
use std::sync::mpsc::{Receiver, SyncSender, sync_channel};

/// An end that takes whoever has the key.
struct Near {
    replica: u8,
    key: Key<Hmac>,
    happened: SyncSender<Happened>,
}

impl Ends for Near {
    type Mac = Hmac;
    type Who = ();
    const MAGIC: Magic = *b"EPxx\x01";
    const OF_KEYS: &'static str = "";

    fn place(&self) -> Place {
        Place { replicas: 3, replica: self.replica }
    }

    fn key(&self) -> &Key<Hmac> {
        &self.key
    }

    fn greeting(&self) -> Vec<u8> {
        vec![self.replica]
    }

    fn judge(&self, peer: u8, answer: &[u8]) -> Result<(), ConnectFault> {
        if answer == [peer] { Ok(()) } else { Err(ConnectFault::OtherPeer) }
    }

    fn answer(&self, from: u8, greeting: &[u8]) -> io::Result<Option<(Vec<u8>, Option<()>)>> {
        Ok((greeting == [from]).then(|| (vec![self.replica], Some(()))))
    }

    fn takes(&self, _: u8, (): ()) -> bool {
        true
    }

    fn happen(&self, what: Happened) -> bool {
        self.happened.send(what).is_ok()
    }
}

fn near(replica: u8, secret: &[u8]) -> (Arc<Near>, Receiver<Happened>) {
    let (happened, all) = sync_channel(16);
    (Arc::new(Near { replica, key: Key::of(secret), happened }), all)
}

/// Tries until it is connected, or refused for good: on a machine that is busy the first try may take too long.
fn connect(sender: &TcpSender<Near>) -> Result<(TcpStream, Channel<Hmac>), ConnectFault> {
    for _ in 0..20 {
        match sender.connect() {
            Err(ConnectFault::Failed) => {}
            other => return other,
        }
    }
    Err(ConnectFault::Failed)
}

/// A replica 1 that listens, what happens there, and the address.
fn listening(secret: &[u8]) -> (Arc<TcpReceiver<Near>>, Receiver<Happened>, String) {
    let listener = TcpListener::bind("127.0.0.1:0").unwrap();
    let address = listener.local_addr().unwrap().to_string();
    let (far, happened) = near(1, secret);
    let receiver = Arc::new(TcpReceiver::new(far));
    let served = receiver.clone();
    thread::spawn(move || served.listen(&listener));
    (receiver, happened, address)
}

fn sender(address: String, secret: &[u8]) -> TcpSender<Near> {
    TcpSender::new(1, address, near(0, secret).0)
}

#[test]
fn frames_go_to_a_peer() {
    let (_receiver, happened, address) = listening(b"");
    let sender = sender(address, b"");
    let (stream, channel) = connect(&sender).ok().unwrap();
    sender.send(vec![7; SHORTEST_FRAME]);
    sender.send(vec![8; LONGEST_FRAME]);
    thread::scope(|scope| {
        scope.spawn(|| sender.send_all(stream.try_clone().unwrap(), channel));
        let mut came = happened.iter().skip_while(|it| *it == Happened::Called(0));
        assert_eq!(came.next(), Some(Happened::Came(0, vec![7; SHORTEST_FRAME])));
        assert_eq!(came.next(), Some(Happened::Came(0, vec![8; LONGEST_FRAME])));
        let _ = stream.shutdown(Shutdown::Both);
    });
}

#[test]
fn what_goes_at_once_and_what_waits_keep_their_order() {
    let (_receiver, happened, address) = listening(b"");
    let sender = sender(address, b"");
    let (stream, channel) = connect(&sender).ok().unwrap();
    let frame = |number: u32| [&number.to_be_bytes()[..], &[7; MOST_AT_ONCE - 4]].concat();
    thread::scope(|scope| {
        scope.spawn(|| sender.send_all(stream.try_clone().unwrap(), channel));
        while !sender.queue().is_awaited {
            thread::sleep(Duration::from_millis(1));
        }
        // (the thread isn't woken for it)
        sender.send(frame(0));
        assert!(sender.queue().is_awaited);
        // Nobody takes them, so they wait in the end.
        let mut sent = 1;
        while sender.queue().frames.len() < 100 {
            sender.send(frame(sent));
            sent += 1;
        }
        let mut taken = happened.iter().filter_map(|it| match it {
            Happened::Came(_, bytes) => Some(bytes),
            _ => None,
        });
        assert!((0..sent).all(|number| taken.next() == Some(frame(number))));
        let _ = stream.shutdown(Shutdown::Both);
    });
}

#[test]
fn another_key_is_refused() {
    let secret = b"a key of twenty bytes";
    let (_receiver, _happened, address) = listening(secret);
    assert_eq!(connect(&sender(address.clone(), b"")).err(), Some(ConnectFault::OtherKey));
    assert!(connect(&sender(address, secret)).is_ok());
}

#[test]
fn strangers_keep_no_peer_out() {
    let (receiver, _happened, address) = listening(b"");
    let strangers: Vec<_> = (0..2 * MOST_STRANGERS).map(|_| TcpStream::connect(&address).unwrap()).collect();
    let first = &strangers[0];
    first.set_read_timeout(Some(SILENCE)).unwrap();
    // The oldest were closed, and sent nothing.
    assert_eq!((&mut &*first).read(&mut [0; 64]).unwrap_or(0), 0);
    assert!(connect(&sender(address, b"")).is_ok());
    assert!(receiver.count_strangers() <= MOST_STRANGERS);
}

#[cfg(unix)]
#[test]
fn a_silent_peer_is_lost() {
    let (mut calling, mut answering) = std::os::unix::net::UnixStream::pair().unwrap();
    let (hello, key) = (Hello::new(Near::MAGIC, [3, 0, 1]).unwrap(), Key::<Hmac>::none());
    let (called, mut answered) = thread::scope(|scope| {
        let answered = scope.spawn(|| {
            let hello = sealed::heard(&mut answering).unwrap();
            sealed::answer(&mut answering, &key, &hello).unwrap()
        });
        let called = sealed::call(&mut calling, &key, &hello).unwrap();
        (called, answered.join().unwrap())
    });
    calling.set_read_timeout(Some(Duration::from_millis(50))).unwrap();
    for _ in 0..2 {
        answered.sending.write(&mut answering, BEAT, &[]).unwrap();
    }
    assert_eq!(heard_out(&calling, called.receiving), LinkFault::Silent);
}

#[test]
fn a_full_queue_loses_the_oldest() {
    let sender = sender("127.0.0.1:1".into(), b"");
    for number in 0..200 {
        sender.send(vec![number; LONGEST_FRAME]);
    }
    let queue = sender.queue();
    assert!(queue.bytes <= MOST_WAITING && queue.bytes == queue.frames.len() * LONGEST_FRAME);
    assert_eq!(queue.frames.back().map(|frame| frame[0]), Some(199));
    assert_eq!(sender.lost.load(Ordering::Relaxed), 200 - queue.frames.len() as u64);
}

#[test]
fn it_is_idle_once_all_is_written() {
    let sender = sender("127.0.0.1:1".into(), b"");
    sender.send(vec![7; SHORTEST_FRAME]);
    // (what goes to nobody isn't waited for)
    assert!(sender.is_idle());
    sender.is_reached.store(true, Ordering::Relaxed);
    assert!(!sender.is_idle());
    // It was taken, and isn't written yet; then it is.
    sender.queue().frames.clear();
    assert!(!sender.is_idle());
    sender.queue().is_awaited = true;
    assert!(sender.is_idle());
}

#[test]
fn what_is_ended_is_over_at_both_ends() {
    let (receiver, happened, address) = listening(b"");
    let (here, events) = near(0, b"");
    let sender = TcpSender::start(1, address, here).unwrap();
    assert_eq!(events.recv(), Ok(Happened::Reached(1)));
    assert!(happened.iter().any(|it| it == Happened::Called(0)));
    receiver.end();
    assert_eq!(events.recv(), Ok(Happened::Lost(1)));
    sender.end();
    drop(sender);
    // (the thread has gone, and what it would report with it)
    assert!(events.iter().all(|it| matches!(it, Happened::Reached(1) | Happened::Lost(1))));
}

#[test]
fn what_waits_at_the_end_goes_out() {
    let (_receiver, happened, address) = listening(b"");
    let sender = sender(address, b"");
    let (stream, channel) = connect(&sender).ok().unwrap();
    (0..9).for_each(|byte| sender.send(vec![byte; SHORTEST_FRAME]));
    sender.end();
    assert_eq!(sender.send_all(stream, channel), LinkFault::Ended);
    let came: Vec<_> = happened.iter().filter(|it| *it != Happened::Called(0)).take(9).collect();
    assert!(came.iter().zip(0..).all(|(it, byte)| *it == Happened::Came(0, vec![byte; SHORTEST_FRAME])));
}
