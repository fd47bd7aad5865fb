//! How a replica starts, by what its folder has: as the library plans it (docs/FORMATS.md, section 13).
use crate::ffi::{self, HeldGeneration, StartWish};
use crate::parts::plan_fault::PlanFault;
use crate::status;

/// What the folder has of a generation.
#[derive(Clone, Copy, PartialEq, Eq, Debug)]
pub struct Held {
    pub number: u32,
    pub has_opening: bool,
    pub has_reference: bool,
    /// Whether a binding says that both stand for one another.
    pub is_bound: bool,
    /// The later generation that a mark says was begun; 0 where there is no mark.
    pub left_for: u32,
}

/// What a start is asked for. An opening that is handed over is the same where its bytes are those of the newest one
/// here.
#[derive(Clone, Copy, PartialEq, Eq, Debug)]
pub enum Wish {
    /// To go on with what is there.
    GoOn,
    /// To begin generation 1, of a replica that is new.
    New { is_same: bool },
    /// To take the opening of this generation, which a peer has, or which this process made as it closed the one
    /// before.
    Take { generation: u32, is_same: bool },
}

/// How the log of a generation is started.
#[derive(Clone, Copy, PartialEq, Eq, Debug)]
pub enum LogStart {
    /// It is begun: there is none.
    New,
    /// It is gone on with, or begun where there is none.
    Either,
    /// It is gone on with.
    Existing,
}

/// What a start does.
#[derive(Clone, Copy, PartialEq, Eq, Debug)]
pub struct Plan {
    pub generation: u32,
    /// Whether the opening is written into its place.
    pub writes: bool,
    pub log: LogStart,
}

/// The greatest generation that is here; 0 where none is.
pub fn newest(held: &[Held]) -> Result<u32, PlanFault> {
    ffi::newest(&spelled(held)).map_err(|status| fault(status, 0))
}

/// The whole generation whose opening this one's is read from: itself, or the greatest below it up to which all have
/// references. Their logs lead from the one to the other.
pub fn first(held: &[Held], generation: u32) -> Result<u32, PlanFault> {
    ffi::first(&spelled(held), generation).map_err(|(status, first)| fault(status, first))
}

/// How a replica whose folder has this starts, or why it doesn't.
pub fn plan(held: &[Held], wish: Wish) -> Result<Plan, PlanFault> {
    let (kind, is_same, generation) = match wish {
        Wish::GoOn => (1, false, 0),
        Wish::New { is_same } => (2, is_same, 0),
        Wish::Take { generation, is_same } => (3, is_same, generation),
    };
    let wish = StartWish { generation, kind, is_same: is_same.into() };
    let plan = ffi::plan(&spelled(held), &wish).map_err(|(status, at)| fault(status, at as u32))?;
    let log = match plan.log {
        1 => LogStart::New,
        2 => LogStart::Either,
        _ => LogStart::Existing,
    };
    Ok(Plan { generation: plan.generation, writes: plan.writes == 1, log })
}

fn spelled(held: &[Held]) -> Vec<HeldGeneration> {
    let spell = |one: &Held| HeldGeneration {
        number: one.number,
        left_for: one.left_for,
        has_opening: one.has_opening.into(),
        has_reference: one.has_reference.into(),
        is_bound: one.is_bound.into(),
    };
    held.iter().map(spell).collect()
}

/// What a status says that isn't `DONE`, with the generation that it names.
fn fault(status: u8, generation: u32) -> PlanFault {
    match status {
        status::NO_GENERATION => PlanFault::None,
        status::HAS_GENERATION => PlanFault::Begun(generation),
        status::LEFT => PlanFault::Left(generation),
        status::OLDER => PlanFault::Earlier(generation),
        status::OTHER_FILE => PlanFault::Other(generation),
        status::BROKEN => PlanFault::Broken(generation),
        _ => PlanFault::Memory,
    }
}

/// The generation that a folder's name spells, in decimal without a zero in front.
pub fn generation_in(name: &str) -> Option<u32> {
    ffi::generation_in(name.as_bytes())
}

/// The later generation that the mark of this one names, by its bytes. What can't be read stands for every later one.
pub fn left_in(bytes: &[u8], generation: u32) -> u32 {
    ffi::left_in(bytes, generation)
}

#[cfg(test)]
mod tests {
    use super::*;

    fn held(number: u32, [has_opening, has_reference, is_bound]: [bool; 3]) -> Held {
        Held { number, has_opening, has_reference, is_bound, left_for: 0 }
    }

    #[test]
    fn an_opening_is_read_or_replayed() {
        const FILE: [bool; 3] = [true, false, false];
        const NAMED: [bool; 3] = [false, true, false];
        const UNBOUND: [bool; 3] = [true, true, false];
        const BOUND: [bool; 3] = [true, true, true];
        const NOTHING: [bool; 3] = [false; 3];
        for (all, newest_one, wanted) in [
            (&[FILE][..], 1, Ok(1)),
            (&[FILE, NAMED], 2, Ok(1)),
            (&[FILE, NAMED, UNBOUND], 3, Ok(1)),
            (&[FILE, NAMED, BOUND], 3, Ok(3)),
            (&[NOTHING, BOUND, NAMED, NAMED], 4, Ok(2)),
            (&[NOTHING, FILE, NAMED], 3, Ok(2)),
            (&[NOTHING, NAMED, NAMED], 3, Err(1)),
            (&[FILE, NOTHING, UNBOUND, NAMED], 4, Err(2)),
            (&[NAMED], 1, Err(0)),
        ] {
            let all: Vec<Held> = (1..).zip(all).map(|(number, it)| held(number, *it)).collect();
            assert_eq!(newest(&all).unwrap(), newest_one);
            let found = first(&all, newest_one).map_err(|fault| match fault {
                PlanFault::Broken(generation) => generation,
                fault => panic!("{fault:?}"),
            });
            assert_eq!(found, wanted, "{all:?}");
        }
    }

    #[test]
    fn a_start_is_planned() {
        let all = |marks: &[u32]| -> Vec<Held> {
            let here =
                |(number, left_for): (u32, &u32)| Held { left_for: *left_for, ..held(number, [true, false, false]) };
            (1..).zip(marks).map(here).collect()
        };
        let (same, other) = (Wish::New { is_same: true }, Wish::New { is_same: false });
        let take = |generation, is_same| Wish::Take { generation, is_same };
        for (marks, wish, wanted) in [
            (&[][..], Wish::GoOn, Err(PlanFault::None)),
            (&[], other, Ok((1, true, LogStart::New))),
            (&[], take(3, false), Ok((3, true, LogStart::Either))),
            (&[0], Wish::GoOn, Ok((1, false, LogStart::Existing))),
            (&[0], same, Ok((1, false, LogStart::New))),
            (&[0], other, Err(PlanFault::Begun(1))),
            (&[0, 0], same, Err(PlanFault::Begun(2))),
            (&[0, 0], Wish::GoOn, Ok((2, false, LogStart::Either))),
            (&[2, 0], Wish::GoOn, Ok((2, false, LogStart::Existing))),
            (&[2, 3], Wish::GoOn, Err(PlanFault::Left(3))),
            (&[2, 3], take(3, false), Err(PlanFault::Left(3))),
            (&[2, 3], take(4, false), Ok((4, true, LogStart::Either))),
            (&[0, 0], take(1, true), Err(PlanFault::Earlier(2))),
            (&[0, 0], take(2, false), Err(PlanFault::Other(2))),
            (&[0, 0], take(2, true), Ok((2, false, LogStart::Either))),
        ] {
            let plan = plan(&all(marks), wish).map(|it| (it.generation, it.writes, it.log));
            assert_eq!(plan, wanted, "{marks:?} {wish:?}");
        }
    }

    #[test]
    fn names_and_marks() {
        for name in ["", "0", "01", "+1", "-1", "x", "1x", "4294967296"] {
            assert_eq!(generation_in(name), None, "{name}");
        }
        assert_eq!((generation_in("1"), generation_in("4294967295")), (Some(1), Some(u32::MAX)));
        for mark in [&b""[..], b"?", b"+3", b"3\n", b"2", b"1", b"4294967296", b"00000000003", b"\xff"] {
            assert_eq!(left_in(mark, 2), u32::MAX, "{mark:?}");
        }
        assert_eq!((left_in(b"3", 2), left_in(b"0003", 2)), (3, 3));
    }
}
