//! What is sent.
#![forbid(unsafe_code)]

/// A frame to be sent. It may be lost, repeated, delayed and overtaken; it may not be forged.
///
/// ```
/// # use std::io::Write;
/// fn send(frame: &epaxos::Frame, peers: &mut [std::net::TcpStream]) -> std::io::Result<()> {
///     let peer = &mut peers[usize::from(frame.to)];
///     peer.write_all(&(frame.bytes.len() as u32).to_be_bytes())?;
///     peer.write_all(frame.bytes)
/// }
/// ```
#[derive(Clone, Copy, PartialEq, Eq, Hash, Debug)]
pub struct Frame<'a> {
    /// The replica that it is for.
    pub to: u8,
    /// What that one hands to [`handle`](crate::Replica::handle).
    pub bytes: &'a [u8],
}
