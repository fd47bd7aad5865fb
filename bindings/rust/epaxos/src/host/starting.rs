//! How a host starts, by what the disk has.
use super::acting::{self, Acting};
use super::applying::Applying;
use super::files::Files;
use crate::host::{Act, Done, FolderFault, Name, Plant, Settings, StartFault, Stored};
use crate::parts::folder::{self, look};
use crate::parts::follower::{Begun, Follower, cluster};
use crate::parts::members::Members;
use crate::parts::opening::Opening;
use crate::parts::plan_fault::PlanFault;
use crate::parts::planning::{LogStart, Wish, newest, plan};
use crate::{Cluster, Executed, Reference, Replica, Setup};

/// What a host goes on with.
pub(super) struct Started {
    pub(super) acting: Acting,
    pub(super) files: Files,
    /// What is to be on the disk before anything goes out.
    pub(super) acts: Vec<Act>,
    /// The number of this start, from 1.
    pub(super) start: u32,
    /// What was executed before the present generation's log.
    pub(super) executed: Vec<Done>,
    /// How many replicas there are, and whom the seal before named, where it named some.
    pub(super) cluster: Cluster,
    pub(super) members: Option<Members>,
}

/// The number of the start that is made now, and what keeps it.
pub(super) fn count(settings: &Settings, stored: &impl Stored) -> Result<(u32, Act), StartFault> {
    let bytes = stored.read(0, Name::Starts)?;
    let before = match bytes {
        None => 0,
        Some(bytes) => {
            bytes.try_into().map(u32::from_be_bytes).map_err(|_| StartFault::Damaged(0, "count of starts"))?
        }
    };
    let before = if settings.has(Plant::SameNumbers) { 0 } else { before };
    let start = before.checked_add(1).ok_or(StartFault::OutOfRange)?;
    Ok((start, Act::Put { generation: 0, name: Name::Starts, bytes: start.to_be_bytes().into() }))
}

/// Whether no generation is there: what a machine that joins has put there before its first one was whole is none.
pub(super) fn check_none(stored: &impl Stored) -> Result<(), StartFault> {
    match newest(&look(stored)?)? {
        0 => Ok(()),
        here => Err(PlanFault::Begun(here).into()),
    }
}

/// Begins generation 1 of a new replica.
pub(super) fn begin(
    settings: &Settings,
    stored: &impl Stored,
    applying: Option<&mut Applying>,
) -> Result<Started, StartFault> {
    let (held, opening) = (look(stored)?, settings.cluster.first_opening());
    let is_same = stored.read(1, Name::Opening)?.is_some_and(|bytes| bytes == opening);
    plan(&held, Wish::New { is_same })?;
    if stored.read(1, Name::Log)?.is_some_and(|bytes| !bytes.is_empty()) {
        return Err(FolderFault::HasLog.into());
    }
    let (start, counted) = count(settings, stored)?;
    let replica = Setup { told: Some(0), ..Setup::new(settings.cluster, settings.me) }.begin();
    let replica = replica.map_err(|fault| FolderFault::of(fault, None))?;
    let mut acting = Acting::new(replica, 1, 0, settings).reporting(applying.is_some());
    let put = |name, bytes| Act::Put { generation: 1, name, bytes };
    let mut acts = vec![counted];
    if let Some(applying) = applying {
        applying.begin(1);
        acts.push(put(Name::Machine, applying.begun().to_vec()));
    }
    acts.push(put(Name::Opening, opening.to_vec()));
    acts.extend(acting.lend_whole().map_err(FolderFault::Core)?.map(|bytes| put(Name::Log, bytes)));
    let mut files = Files::default();
    files.keep(1, opening.len() as u64, None);
    let (executed, cluster, members) = (Vec::new(), settings.cluster, None);
    Ok(Started { acting, files, acts, start, executed, cluster, members })
}

/// Goes on with what is there.
pub(super) fn go_on(
    settings: &Settings,
    stored: &impl Stored,
    mut applying: Option<&mut Applying>,
) -> Result<Started, StartFault> {
    let held = look(stored)?;
    let plan = plan(&held, Wish::GoOn)?;
    let found = folder::Started::read(stored, &held, plan.generation)?;
    let whole = found.first.generation;
    restore(stored, whole, applying.as_deref_mut())?;
    let (start, counted) = count(settings, stored)?;
    let log = stored.read(plan.generation, Name::Log)?.filter(|bytes| !bytes.is_empty());
    if log.is_none() && plan.log == LogStart::Existing {
        return Err(FolderFault::NoLog(plan.generation).into());
    }
    let mut acts = vec![counted];
    let put = |generation, name, bytes| Act::Put { generation, name, bytes };
    // (what was read may not be on the disk)
    if let Some(reference) = &found.first.reference {
        let digest = found.first.bytes.last_chunk().unwrap_or(&[0; 32]);
        acts.push(put(whole, Name::Reference, reference.bytes()));
        acts.push(put(whole, Name::Whole, reference.binding(digest)));
    }
    match found.references.last() {
        _ if log.is_some() => {}
        Some(reference) => acts.push(put(plan.generation, Name::Reference, reference.bytes())),
        None if found.first.reference.is_none() => acts.push(put(whole, Name::Opening, found.first.bytes.clone())),
        None => {}
    }
    let reports_executed = settings.tells_executed || applying.is_some();
    let (mut executed, mut more) = (Vec::new(), Vec::new());
    let each = |generation, done: Option<Executed>| match done {
        Some(done) => more.extend(reports_executed.then(|| acting::done(generation, &done))),
        None => {
            if let Some(applying) = &mut applying {
                applying.apply(&more, settings.me);
                applying.begin(generation + 1);
            }
            executed.append(&mut more);
        }
    };
    let log_of = |next: &Reference| folder::log_of(stored, next, settings.sums.of);
    let follower = Follower { replica: settings.me };
    let Begun { replica, opening, mut unwritten } = follower.begin(&found, log.as_deref(), log_of, each)?;
    let mut files = Files::default();
    // (there is no other thread here that could do it)
    unwritten.iter_mut().for_each(|(_, checkpoint)| checkpoint.let_go());
    files.unwritten = unwritten;
    files.keep(whole, found.first.bytes.len() as u64, found.first.reference);
    found.references.iter().for_each(|next| files.leave(*next));
    let mut acting = Acting::new(replica, plan.generation, opening.map, settings).reporting(applying.is_some());
    acts.extend(acting.lend_whole().map_err(FolderFault::Core)?.map(|bytes| put(plan.generation, Name::Log, bytes)));
    let earlier = held.iter().filter(|one| one.number < plan.generation && one.left_for < plan.generation);
    acts.extend(earlier.map(|one| put(one.number, Name::Left, plan.generation.to_string().into())));
    let (cluster, members) = (cluster(opening.replicas)?, opening.members());
    Ok(Started { acting, files, acts, start, executed, cluster, members })
}

/// Goes on with a later opening, which somebody hands who runs the cluster.
pub(super) fn take(settings: &Settings, stored: &impl Stored, bytes: &[u8]) -> Result<Started, StartFault> {
    let opened = folder::opened(bytes.to_vec()).map_err(|why| FolderFault::BadOpening(None, why))?;
    let (generation, cluster) = (opened.generation, cluster(opened.replicas)?);
    // (nothing of it comes to the disk before the core has judged it)
    let setup = Setup { opening: Some(bytes), told: Some(0), ..Setup::new(cluster, settings.me) };
    let replica = setup.begin().map_err(|fault| FolderFault::of(fault, None))?;
    let held = look(stored)?;
    let is_same = newest(&held)? == generation && stored.read(generation, Name::Opening)?.is_some_and(|it| it == bytes);
    let plan = plan(&held, Wish::Take { generation, is_same })?;
    if !plan.writes {
        return go_on(settings, stored, None);
    }
    if plan.log == LogStart::New && stored.read(generation, Name::Log)?.is_some_and(|log| !log.is_empty()) {
        return Err(FolderFault::HasLog.into());
    }
    let (start, counted) = count(settings, stored)?;
    let opening = Opening::of(bytes).unwrap_or_default();
    let mut acting = Acting::new(replica, generation, opening.map, settings);
    let mut acts = vec![counted];
    let put = |generation, name, bytes| Act::Put { generation, name, bytes };
    // (the opening behind the log: before it is there, the generation isn't)
    acts.extend(acting.lend_whole().map_err(FolderFault::Core)?.map(|log| put(generation, Name::Log, log)));
    acts.push(put(generation, Name::Opening, bytes.to_vec()));
    let earlier = held.iter().filter(|one| one.number < generation && one.left_for < generation);
    acts.extend(earlier.map(|one| put(one.number, Name::Left, generation.to_string().into())));
    let mut files = Files::default();
    files.keep(generation, bytes.len() as u64, None);
    Ok(Started { acting, files, acts, start, executed: Vec::new(), cluster, members: opening.members() })
}

/// The machine, where there is one, gets the state with which a whole generation begins.
fn restore(stored: &impl Stored, generation: u32, applying: Option<&mut Applying>) -> Result<(), StartFault> {
    match (stored.read(generation, Name::Machine)?, applying) {
        (None, None) => Ok(()),
        (Some(file), Some(applying)) => match applying.restore(generation, &file) {
            Ok(true) => Ok(()),
            Ok(false) => Err(StartFault::Damaged(generation, "state of the state machine")),
            Err(error) => Err(StartFault::Restore(error)),
        },
        _ => Err(StartFault::Machine(generation)),
    }
}

/// A replica that begins a generation by an opening that a peer has handed.
pub(super) fn taken(settings: &Settings, replicas: u8, bytes: &[u8]) -> Option<Replica> {
    let new = Setup::new(Cluster::try_from(replicas).ok()?, settings.me);
    Setup { opening: Some(bytes), told: Some(0), ..new }.begin().ok()
}
