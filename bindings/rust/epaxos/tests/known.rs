//! What a replica knows, and knows again after a start.
#![forbid(unsafe_code)]

mod common;

use common::{Owned, World};
use epaxos::{Cluster, Fault};
use std::collections::BTreeMap;

/// The greatest entry number in the frames that each replica has handled of each other one (docs/FORMATS.md, section 1.2).
#[derive(Default)]
struct Handled(BTreeMap<(usize, u8), u32>);

impl Handled {
    /// Hands over all frames, but those that are to be lost.
    fn deliver(&mut self, world: &mut World, is_lost: impl Fn(usize) -> bool) {
        for (at, (to, frame)) in std::mem::take(&mut world.frames).into_iter().enumerate() {
            if is_lost(at) {
                continue;
            }
            let (to, entry) = (usize::from(to), u32::from_be_bytes(*frame[8..].first_chunk().unwrap()));
            world.replica(to).handle(&frame).unwrap();
            let most = self.0.entry((to, frame[4])).or_default();
            *most = entry.max(*most);
        }
    }

    fn check(&self, world: &mut World) {
        for me in 0..3 {
            for peer in 0..3 {
                let handled = self.0.get(&(me, peer)).copied().unwrap_or(0);
                assert_eq!(world.replica(me).handled(peer), Ok(handled), "of {peer} at {me}");
            }
            assert_eq!(world.replica(me).handled(3), Err(Fault::OutOfRange));
        }
    }
}

#[test]
fn what_was_handled_of_others() {
    let mut world = World::new(Cluster::Three, None, 5);
    let mut handled = Handled::default();
    handled.check(&mut world);
    for request in 1..=20 {
        let me = request as usize % 3;
        world.propose(me, 1, request, &Owned::Put(b"key".to_vec(), request.to_string().into()));
        for _ in 0..3 {
            (0..3).for_each(|me| world.settle(me));
            handled.deliver(&mut world, |at| (at as u32 + request) % 5 == 0);
        }
    }
    (0..3).for_each(|me| world.settle(me));
    handled.check(&mut world);
    for me in 0..3 {
        world.stop(me);
        world.start(me, b"torn");
    }
    handled.check(&mut world);
    assert!(handled.0.values().all(|most| *most > 10), "too few frames went by");
}

#[test]
fn what_all_keys_have() {
    let mut world = World::new(Cluster::Three, None, 6);
    for request in 1..=40 {
        let key = vec![b'a' + request as u8 % 7; 1 + request as usize % 255];
        let command = match request % 5 {
            0 => Owned::Del(key),
            _ => Owned::Put(key, vec![b'%'; request as usize * 100 % 900]),
        };
        world.propose(0, 1, request, &command);
        assert_eq!(world.replica(0).contents().err(), Some(Fault::Unsynced));
        world.settle(0);
    }
    world.finish();
    let map = world.check().map;
    assert!(map.len() > 20);
    for me in 0..3 {
        let contents = world.replica(me).contents().unwrap();
        assert_eq!(contents.len(), map.len());
        assert!(contents.eq(map.iter().map(|(key, value)| (&key[..], &value[..]))));
    }
}
