//! One log, one replica.
#![forbid(unsafe_code)]

mod common;

use epaxos::{Call, Cluster, Command, CommitFault, Log, LogFile, Replica, Setup};
use std::fs;
use std::io::ErrorKind;
use std::path::PathBuf;

const PUT: Command = Command::Put { key: b"x", value: b"1" };

/// A folder that goes with the test.
struct Folder(PathBuf);

impl Folder {
    fn new(name: &str) -> Folder {
        let path = std::env::temp_dir().join(format!("epaxos-{name}-{}", std::process::id()));
        fs::create_dir_all(&path).unwrap();
        Folder(path)
    }

    fn file(&self, name: &str) -> PathBuf {
        self.0.join(name)
    }
}

impl Drop for Folder {
    fn drop(&mut self) {
        let _ = fs::remove_dir_all(&self.0);
    }
}

fn setup(me: u8) -> Setup<'static> {
    Setup::new(Cluster::Three, me)
}

/// What is ready isn't written to this log, which stays as it is, and nothing comes of it.
fn check_refused(replica: &mut Replica, file: &mut LogFile, path: &PathBuf) {
    let before = fs::read(path).ok();
    let ready = replica.ready().unwrap();
    let kept = file.keep(&ready).unwrap_err();
    assert_eq!(kept.kind(), ErrorKind::InvalidInput, "{kept}");
    let Err(CommitFault::Log(refusal)) = ready.commit(file) else { panic!("it was committed to another's log") };
    assert_eq!(refusal.kind(), ErrorKind::InvalidInput, "{refusal}");
    assert_eq!(fs::read(path).ok(), before);
}

/// The replica goes on from its log.
fn check_opens(me: u8, path: &PathBuf, entries: u32) {
    let (mut file, log) = LogFile::open(path).unwrap();
    let mut replica = Setup { told: Some(entries), ..setup(me) }.open(&log).unwrap();
    assert_eq!(replica.ready().unwrap().commit(&mut file).unwrap().entries(), entries);
    assert_eq!(fs::read(path).unwrap(), log);
}

#[test]
fn another_replicas_log_is_refused() {
    let folder = Folder::new("logs");
    let paths = [folder.file("zero"), folder.file("one")];
    let mut files = [0, 1].map(|me: usize| LogFile::begin(&paths[me]).unwrap());
    let mut replicas = [0, 1].map(|me| setup(me).begin().unwrap());
    for (replica, file) in replicas.iter_mut().zip(&mut files) {
        replica.ready().unwrap().commit(file).unwrap();
        replica.propose(Call::new(1, 1), PUT).unwrap();
    }
    let [zero, one] = &mut replicas;
    check_refused(zero, &mut files[1], &paths[1]);
    check_refused(one, &mut files[0], &paths[0]);
    for (replica, file) in replicas.iter_mut().zip(&mut files) {
        assert_eq!(replica.ready().unwrap().commit(file).unwrap().frames().count(), 1);
    }
    // nor where nothing is to be written
    let [zero, one] = &mut replicas;
    check_refused(zero, &mut files[1], &paths[1]);
    check_refused(one, &mut files[0], &paths[0]);
    drop(files);
    check_opens(0, &paths[0], 1);
    check_opens(1, &paths[1], 1);
}

/// Replicas of one number, in two clusters, whose logs are of one length.
#[test]
fn another_clusters_log_is_refused() {
    let folder = Folder::new("clusters");
    let paths = [folder.file("here"), folder.file("there")];
    let mut files = [0, 1].map(|at: usize| LogFile::begin(&paths[at]).unwrap());
    let mut replicas = [0, 0].map(|me| setup(me).begin().unwrap());
    for (replica, file) in replicas.iter_mut().zip(&mut files) {
        replica.ready().unwrap().commit(file).unwrap();
        replica.propose(Call::new(1, 1), PUT).unwrap();
    }
    let [here, there] = &mut replicas;
    check_refused(here, &mut files[1], &paths[1]);
    check_refused(there, &mut files[0], &paths[0]);
}

/// A new replica takes no log's place, nor does one that was opened from another log.
#[test]
fn a_log_is_not_begun_anew() {
    let folder = Folder::new("anew");
    let path = folder.file("zero");
    let mut file = LogFile::begin(&path).unwrap();
    let mut replica = setup(0).begin().unwrap();
    replica.ready().unwrap().commit(&mut file).unwrap();
    replica.propose(Call::new(1, 1), PUT).unwrap();
    replica.ready().unwrap().commit(&mut file).unwrap();
    check_refused(&mut setup(0).begin().unwrap(), &mut file, &path);
    drop((file, replica));
    let (mut file, log) = LogFile::open(&path).unwrap();
    check_refused(&mut setup(0).begin().unwrap(), &mut file, &path);
    check_refused(&mut setup(0).open(&log[..43]).unwrap(), &mut file, &path);
    let mut replica = setup(0).open(&log).unwrap();
    assert_eq!(replica.ready().unwrap().commit(&mut file).unwrap().entries(), 1);
}

/// What a crash has left goes with the first write of a replica that was opened from just these bytes, and of no other.
#[test]
fn what_a_crash_left_is_replaced() {
    let folder = Folder::new("torn");
    let path = folder.file("zero");
    let mut file = LogFile::begin(&path).unwrap();
    let mut replica = setup(0).begin().unwrap();
    for request in 0..2 {
        replica.ready().unwrap().commit(&mut file).unwrap();
        replica.propose(Call::new(1, request + 1), PUT).unwrap();
    }
    drop((file, replica));
    let whole = fs::read(&path).unwrap();
    fs::write(&path, [&whole[..], b"torn"].concat()).unwrap();
    let (mut file, log) = LogFile::open(&path).unwrap();
    let lost = [&whole[..43], &vec![7; log.len() - 43]].concat();
    for (other, cut) in [(&lost, log.len() - 43), (&whole, 0)] {
        let mut replica = setup(0).open(other).unwrap();
        assert_eq!(replica.cut(), cut as u64);
        check_refused(&mut replica, &mut file, &path);
    }
    let mut replica = setup(0).open(&log).unwrap();
    assert_eq!(replica.cut(), 4);
    assert_eq!(replica.ready().unwrap().commit(&mut file).unwrap().entries(), 1);
    assert_eq!(fs::read(&path).unwrap(), whole);
    // (in memory too)
    let mut held = log.clone();
    let mut other = setup(0).open(&lost).unwrap();
    assert!(matches!(other.ready().unwrap().commit(&mut held), Err(CommitFault::Log(_))));
    assert_eq!(held, log);
    assert_eq!(setup(0).open(&log).unwrap().ready().unwrap().commit(&mut held).unwrap().entries(), 1);
    assert_eq!(held, whole);
}

/// What is written and not reported isn't written twice; what was said to be there and isn't is missed.
#[test]
fn bytes_are_written_once_and_in_order() {
    let folder = Folder::new("order");
    let path = folder.file("zero");
    let mut file = LogFile::begin(&path).unwrap();
    let mut replica = setup(0).begin().unwrap();
    for request in 0..3 {
        let ready = replica.ready().unwrap();
        file.keep(&ready).unwrap();
        drop(ready);
        replica.ready().unwrap().commit(&mut file).unwrap();
        replica.propose(Call::new(1, request + 1), PUT).unwrap();
    }
    replica.ready().unwrap().assume_synced().unwrap();
    replica.propose(Call::new(1, 4), PUT).unwrap();
    check_refused(&mut replica, &mut file, &path);
    drop(file);
    check_opens(0, &path, 2);
}

/// A log in memory is one replica's too.
#[test]
fn a_log_in_memory() {
    let mut logs = [Vec::new(), Vec::new()];
    let mut replicas = [0, 1].map(|me| Replica::new(Cluster::Three, me).unwrap());
    for (replica, log) in replicas.iter_mut().zip(&mut logs) {
        replica.ready().unwrap().commit(log).unwrap();
        replica.propose(Call::new(1, 1), PUT).unwrap();
    }
    let before = logs.clone();
    assert!(matches!(replicas[0].ready().unwrap().commit(&mut logs[1]), Err(CommitFault::Log(_))));
    assert_eq!(logs, before);
    replicas[0].ready().unwrap().commit(&mut logs[0]).unwrap();
    let replica = Replica::open(Cluster::Three, 0, &logs[0]).unwrap();
    assert_eq!((replica.cut(), logs[1].len()), (0, 43));
}
