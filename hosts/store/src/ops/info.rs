//! What a store reports of itself: INFO, its metrics, and who takes part.
use crate::life::identities::digits;
use crate::ops::metrics::Metrics;
use epaxos::MOST_COMMANDS;
use epaxos::host::{Host, Status};
use std::fmt::Write;

/// INFO counts at most so many open instances.
const MOST_REPORTED: usize = 255;

/// What INFO says of a replica, of whose frames so many were lost for want of room.
pub fn info(replica: u8, it: &Status, frames_lost: u64) -> String {
    let mut text = String::new();
    let mut line = |name: &str, value: &dyn std::fmt::Display| {
        let _ = write!(text, "{name}:{value}\r\n");
    };
    line("replica", &replica);
    line("replicas", &it.replicas);
    line("process_id", &std::process::id());
    line("core_proved", &u8::from(epaxos::IS_PROVED));
    line("generation", &it.generation);
    line("generation_entries", &it.entries);
    line("generation_sealed", &u8::from(it.is_sealed));
    line("generation_changes", &it.changes);
    line("generation_change_ms", &it.changed_in.as_millis());
    line("instances_used", &it.used);
    line("instances_total", &MOST_COMMANDS);
    line("dependencies", &it.dependencies);
    line("log_bytes", &it.log);
    line("map_bytes", &it.map);
    line("commands_waiting", &(it.waiting - it.reads));
    line("reads_waiting", &it.reads);
    line("instances_open", &it.open.min(MOST_REPORTED));
    line("frames_refused", &it.refused);
    line("frames_lost", &frames_lost);
    line("commits_sent_again", &it.sent_again);
    line("accepts_begun", &it.accepts);
    line("recoveries_begun", &it.recoveries);
    line("questions_asked", &it.questions);
    line("questions_asked_again", &it.questions_again);
    line("syncs", &it.syncs);
    line("proposals", &it.proposals);
    line("written_together", &it.together);
    line("spared", &it.spared);
    for (peer, far) in &it.far {
        let state = if it.reached.contains(peer) { "reached" } else { "lost" };
        line(&format!("peer_{peer}"), &state);
        if let Some(far) = far {
            line(&format!("peer_{peer}_round_trip_ms"), &format_args!("{:.1}", far.as_secs_f64() * 1e3));
        }
    }
    text
}

/// Sets the metrics by how the host is.
pub fn set(metrics: &Metrics, it: &Status, frames_lost: u64) {
    for (number, value) in [
        (&metrics.generation, it.generation.into()),
        (&metrics.entries, it.entries.into()),
        (&metrics.log_bytes, it.log),
        (&metrics.open_instances, it.open as u64),
        (&metrics.peers_reached, it.reached.len() as u64),
        (&metrics.quorum_round_trip, it.quorum.unwrap_or_default().as_micros() as u64),
        (&metrics.together, it.together),
        (&metrics.syncs, it.syncs),
        (&metrics.proposals, it.proposals),
        (&metrics.questions, it.questions),
        (&metrics.questions_again, it.questions_again),
        (&metrics.accepts, it.accepts),
        (&metrics.recoveries, it.recoveries),
        (&metrics.frames_lost, frames_lost),
        (&metrics.commits_sent_again, it.sent_again),
        (&metrics.frames_refused, it.refused),
    ] {
        number.set(value);
    }
}

/// A line for each replica: its number, identity, address, generation, and whether it is reached; and one for each
/// machine that waits.
pub fn members(replica: u8, host: &Host) -> String {
    let status = host.status();
    let mut text = format!("generation {}\n", status.generation);
    let members = host.members();
    for (number, member) in (0..).zip(&members) {
        let who = member.identity.as_ref().map_or("not met yet".into(), digits);
        let place = member.address.as_deref().unwrap_or("address from --peers");
        let state = match number {
            me if me == replica => "this one".to_string(),
            peer if status.reached.contains(&peer) => format!("reached, in generation {}", host.generation_of(peer)),
            _ => "lost".into(),
        };
        let _ = writeln!(text, "{number} {who} {place} {state}");
    }
    for (number, identity) in host.waiting_machines() {
        if members.get(usize::from(number)).is_none_or(|member| member.identity != Some(identity)) {
            let _ = writeln!(text, "{number} {} waits to be let in", digits(&identity));
        }
    }
    text
}
