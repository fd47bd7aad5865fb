//! The calls of a service as futures.
use super::inbox::Came;
use super::watcher::Wish as WatchWish;
use super::{answer, changed, replied, value};
use crate::host::{KeyChange, Wish};
use crate::service::{CallFault, Service, Watch, WatchEnd, Watched};
use crate::{OwnedAnswer, OwnedCommand};
use std::future::poll_fn;

/// With the feature `async`: the same calls, for any executor. The host's thread wakes it. What was asked is asked
/// whether the future is waited for or dropped.
impl Service {
    /// As [`call`](Service::call).
    ///
    /// # Errors
    ///
    /// As there.
    ///
    /// ```
    /// use epaxos::OwnedCommand;
    /// use epaxos::service::{CallFault, Service};
    ///
    /// async fn put_both(service: &Service) -> Result<(), CallFault> {
    ///     let put = |key: &str| service.call_async(OwnedCommand::Put { key: key.into(), value: b"1".into() });
    ///     let (one, other) = (put("a"), put("b")); // both are under way
    ///     one.await?;
    ///     other.await?;
    ///     Ok(())
    /// }
    /// ```
    pub fn call_async(
        &self,
        command: OwnedCommand,
    ) -> impl Future<Output = Result<OwnedAnswer, CallFault>> + Send + use<> {
        let outcome = self.ask(|reply| Came::Call(command, reply));
        async { answer(outcome.await) }
    }

    /// As [`apply`](Service::apply).
    ///
    /// # Errors
    ///
    /// As there.
    ///
    /// ```
    /// # use epaxos::{OwnedCommand, service::{CallFault, Service}};
    /// async fn reset(service: &Service, counter: &[u8]) -> Result<(), CallFault> {
    ///     let (first, second, body) = (counter.to_vec(), None, b"reset".into());
    ///     service.apply_async(OwnedCommand::Opaque { is_reading: false, first, second, body }).await?;
    ///     Ok(())
    /// }
    /// ```
    pub fn apply_async(
        &self,
        command: OwnedCommand,
    ) -> impl Future<Output = Result<Vec<u8>, CallFault>> + Send + use<> {
        let outcome = self.ask(|reply| Came::Call(command, reply));
        async { replied(outcome.await) }
    }

    /// As [`read`](Service::read).
    ///
    /// # Errors
    ///
    /// As there.
    ///
    /// ```
    /// # use epaxos::service::{CallFault, Service};
    /// async fn is_there(service: &Service, key: &[u8]) -> Result<bool, CallFault> {
    ///     Ok(service.read_async(key).await?.is_some())
    /// }
    /// ```
    pub fn read_async(&self, key: &[u8]) -> impl Future<Output = Result<Option<Vec<u8>>, CallFault>> + Send + use<> {
        let outcome = self.ask(|reply| Came::Read(key.to_vec(), reply));
        async { value(outcome.await) }
    }

    /// As [`wish`](Service::wish).
    ///
    /// # Errors
    ///
    /// As there.
    ///
    /// ```
    /// # use epaxos::service::{CallFault, Service};
    /// async fn shrink(service: &Service) -> Result<u32, CallFault> {
    ///     service.wish_async(epaxos::host::Wish::Resize { size: 3, new: Vec::new() }).await
    /// }
    /// ```
    pub fn wish_async(&self, wish: Wish) -> impl Future<Output = Result<u32, CallFault>> + Send + use<> {
        let outcome = self.ask(|reply| Came::Wish(wish, reply));
        async { changed(outcome.await) }
    }

    /// As [`watch`](Service::watch).
    ///
    /// # Errors
    ///
    /// As there.
    ///
    /// ```
    /// # use epaxos::service::{Service, Watched};
    /// async fn wait_for(service: &Service, key: &[u8]) -> Result<(), Box<dyn std::error::Error>> {
    ///     let watch = service.watch_async(Watched::Key(key.into()), 100).await?;
    ///     while watch.values().is_empty() && watch.next_async().await?.value.is_none() {}
    ///     Ok(())
    /// }
    /// ```
    pub fn watch_async(
        &self,
        watched: Watched,
        most: usize,
    ) -> impl Future<Output = Result<Watch, CallFault>> + Send + use<> {
        let outcome = self.ask(|reply| Came::Watch(WatchWish { watched, most, reply }));
        async { outcome.await.unwrap_or(Err(CallFault::Ended)) }
    }
}

impl Watch {
    /// As [`next`](Watch::next), with the feature `async`. A future that is dropped has taken nothing. One task waits
    /// at a time.
    ///
    /// # Errors
    ///
    /// As there.
    ///
    /// ```
    /// # use epaxos::service::{Watch, WatchEnd};
    /// async fn print(watch: &Watch) -> Result<(), WatchEnd> {
    ///     loop {
    ///         println!("{:?}", watch.next_async().await?);
    ///     }
    /// }
    /// ```
    pub async fn next_async(&self) -> Result<KeyChange, WatchEnd> {
        poll_fn(|context| self.queue.poll(context)).await
    }
}
