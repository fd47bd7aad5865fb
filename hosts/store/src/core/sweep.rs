//! Removes what is past its deadline though nobody asks for it.
use crate::client::clients::tidy;
use crate::core::keys::Keys;
use crate::core::listing::Listing;
use crate::ops::metrics::Metrics;
use std::sync::Arc;
use std::thread;
use std::time::{Duration, Instant};

/// So many keys are removed in each second, as Redis has it.
const A_SECOND: usize = 20;
/// Between two looks; and a look takes at most one in so many parts of the time.
const PAUSE: Duration = Duration::from_secs(10);
const SHARE: u32 = 50;

/// Looks for such keys from now on, and has them removed, a few in each second.
pub fn sweep(listing: &Listing, keys: &Arc<Keys>, metrics: &Metrics) {
    let mut pause = PAUSE;
    loop {
        thread::sleep(pause);
        let start = Instant::now();
        // (where they can't be listed, who asks for them learns why)
        let over = listing.over().unwrap_or_default();
        pause = PAUSE.max(SHARE * start.elapsed());
        let mut left = over.len();
        metrics.expired.set(left as u64);
        for some in over.chunks(A_SECOND) {
            some.iter().for_each(|key| tidy(keys, key.clone()));
            left -= some.len();
            thread::sleep(Duration::from_secs(1));
            metrics.expired.set(left as u64);
        }
    }
}
