//! What a client learns from an error: whether its command may be done.
use epaxos::Fault;
use store::client::command_fault::CommandFault;
use testing::client::Refusal;

#[test]
fn what_errors_say_of_the_command() {
    let undone = [
        CommandFault::NoMajority,
        CommandFault::Contended,
        CommandFault::Waiting,
        CommandFault::NotInTime,
        CommandFault::NoMemory,
        CommandFault::MapFull,
        CommandFault::Node(Fault::Memory),
        CommandFault::Node(Fault::SpaceFull),
        CommandFault::Node(Fault::StampFull),
    ];
    let doubtful = [CommandFault::Unanswered, CommandFault::StoreEnds, CommandFault::Doubtful, CommandFault::Unseen];
    for (faults, refusal) in [(&undone[..], Refusal::Undone), (&doubtful[..], Refusal::Doubtful)] {
        for fault in faults {
            assert_eq!(fault.may_be_done(), refusal == Refusal::Doubtful);
            assert_eq!(Refusal::of(&fault.to_string()), Some(refusal), "{fault}");
            let at_key = CommandFault::AtKey(Box::new(fault.clone()), 2);
            assert_eq!(Refusal::of(&at_key.to_string()), Some(refusal), "{at_key}");
        }
    }
    for fault in [CommandFault::Syntax, CommandFault::WrongType, CommandFault::LongTransaction, CommandFault::NoScript]
    {
        assert_eq!(Refusal::of(&fault.to_string()), None);
    }
}
