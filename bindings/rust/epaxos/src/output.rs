//! What may be sent and answered.
#![forbid(unsafe_code)]

use crate::followed::Followed;
use crate::report::Report;
use crate::{Executed, Frame, Instance, Leading, OpenInstance, Proposed, Receipt};

/// What may be sent and answered, now that what it rests on is on the disk. Each thing is reported once, in the order
/// of the entries.
///
/// It lives until the next call of the replica, and its parts are lent, not copied. What is dropped unused is as good as lost on its way: frames may be.
///
/// ```
/// # let mut log = Vec::new();
/// use epaxos::{Call, Cluster, Command, Replica};
///
/// let mut replica = Replica::new(Cluster::Three, 0)?;
/// replica.ready()?.commit(&mut log)?;             // (its log is on the disk)
/// replica.propose(Call::new(1, 1), Command::Put { key: b"x", value: b"1" })?;
/// let output = replica.ready()?.commit(&mut log)?;
/// let frame = output.frames().next().unwrap();
/// assert_eq!(frame.to, 1);                            // the other member of its fast quorum
/// assert_eq!(output.receipts().count(), 0);           // nobody has answered yet
/// assert_eq!(output.proposed().next().unwrap().instance.to_string(), "0.1");
/// # Ok::<(), Box<dyn std::error::Error>>(())
/// ```
pub struct Output<'a> {
    report: Report<'a>,
    followed: Followed<'a>,
}

impl<'a> Output<'a> {
    pub(crate) fn new(report: Report<'a>, followed: Followed<'a>) -> Output<'a> {
        Output { report, followed }
    }

    /// How many entries there are, all of which were reported with this. A host that keeps the number beside the log
    /// can have a start go on from there, and refuse a log that is older ([`Setup::told`](crate::Setup::told)).
    ///
    /// ```
    /// # fn of(output: &epaxos::Output) -> std::io::Result<()> {
    /// std::fs::write("told", output.entries().to_string())
    /// # }
    /// ```
    pub fn entries(&self) -> u32 {
        self.report.entries
    }

    /// The frames to be sent. Any of them may be lost, repeated or overtaken.
    ///
    /// ```
    /// # fn of(output: &epaxos::Output, peers: &[std::sync::mpsc::Sender<Vec<u8>>]) {
    /// for frame in output.frames() {
    ///     let _ = peers[usize::from(frame.to)].send(frame.bytes.to_vec());
    /// }
    /// # }
    /// ```
    pub fn frames(&self) -> impl Iterator<Item = Frame<'a>> + use<'a> {
        self.report.frames()
    }

    /// What clients may be answered to the commands that were proposed here.
    ///
    /// ```
    /// # fn of(output: &epaxos::Output, audited: &mut Vec<u8>) {
    /// for receipt in output.receipts() {
    ///     audited.extend(receipt.bytes);
    ///     println!("client {} request {}: {:?}", receipt.client, receipt.request, receipt.answer);
    /// }
    /// # }
    /// ```
    pub fn receipts(&self) -> impl Iterator<Item = Receipt<'a>> + use<'a> {
        self.report.receipts()
    }

    /// The commands that were proposed here, each with its instance.
    ///
    /// ```
    /// # fn of(output: &epaxos::Output) {
    /// for proposed in output.proposed() {
    ///     println!("client {} waits for {}", proposed.client, proposed.instance);
    /// }
    /// # }
    /// ```
    pub fn proposed(&self) -> impl ExactSizeIterator<Item = Proposed> + use<'a> {
        self.followed.proposed()
    }

    /// The instances that got committed, own and others': they may be executed, once what they depend on is committed too.
    ///
    /// ```
    /// # fn of(output: &epaxos::Output) -> Vec<epaxos::Instance> {
    /// output.committed().collect()
    /// # }
    /// ```
    pub fn committed(&self) -> impl ExactSizeIterator<Item = Instance> + use<'a> {
        self.report.committed()
    }

    /// The instances that were executed, own and others', in order, with their commands and answers: for whoever keeps more than the map.
    ///
    /// ```
    /// # fn of(output: &epaxos::Output) {
    /// for executed in output.executed() {
    ///     println!("{} did {:?}: {:?}", executed.instance, executed.command, executed.answer);
    /// }
    /// # }
    /// ```
    pub fn executed(&self) -> impl ExactSizeIterator<Item = Executed<'a>> + use<'a> {
        self.followed.executed()
    }

    /// The instances that were executed, also where it is reported again.
    pub(crate) fn executed_instances(&self) -> impl Iterator<Item = Instance> + use<'a> {
        self.report.executed()
    }

    /// The least instances that are open, in rising order, as many as [`ready_with_open`](crate::Replica::ready_with_open) was asked for.
    ///
    /// ```
    /// # fn of(output: &epaxos::Output, patience: &mut epaxos::Patience, now: u64) {
    /// let open: Vec<_> = output.open().collect();
    /// let late = patience.turn(now, &open, &[]);
    /// # drop(late);
    /// # }
    /// ```
    pub fn open(&self) -> impl Iterator<Item = OpenInstance> + use<'a> {
        self.report.open()
    }

    /// Those of them that are led here, and how far.
    ///
    /// ```
    /// # fn of(output: &epaxos::Output) -> bool {
    /// output.led().any(|(_, leading)| leading.answers == 0)
    /// # }
    /// ```
    pub fn led(&self) -> impl Iterator<Item = (Instance, Leading)> + use<'a> {
        self.open().filter_map(|open| Some((open.instance, open.led?)))
    }

    /// Whether a seal was executed: the generation's map is closed, and [`close`](crate::Replica::close) has the next one's opening.
    ///
    /// ```
    /// # fn of(output: &epaxos::Output) {
    /// if output.is_sealed() {
    ///     println!("the next generation may begin");
    /// }
    /// # }
    /// ```
    pub fn is_sealed(&self) -> bool {
        self.report.is_sealed
    }
}
