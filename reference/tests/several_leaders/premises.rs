//! That a simulated run keeps the premises of the agreement claim, no-votes read per leader.

use reference::group::{has, members};
use reference::layout::{vertex_id, MOST_LEADERS};
use reference::record::{first_refusal, Record};
use reference::simulate::{ModelRun, World};
use reference::Call;

/// At most f members are faulty, all vertices are the world's, and so are honest first messages; main
/// leaders' vertices have the no-votes that they need, without honest voters.
pub fn check(run: &ModelRun) {
    let world = &run.world;
    assert!(world.faulty.count_ones() <= world.group.f());
    for vertex in world.vertices.values() {
        assert_eq!(first_refusal(world.group, vertex), None, "{vertex:?}");
        (0..MOST_LEADERS).for_each(|index| check_no_votes(world, vertex, index));
    }
    for call in run.models.iter().flatten() {
        let record = call.record().and_then(Record::from_words);
        let record = record.expect("it has its size");
        assert_eq!(first_refusal(world.group, &record), None, "{call:?}");
        if matches!(call, Call::Vertex(_)) || !has(world.faulty, record.source) {
            assert_eq!(world.vertices.get(&record.id()), Some(&record));
        }
    }
}

/// A main leader's vertex has a quorum of no-votes against each leader of the round before that it
/// lacks, none of them an honest voter's; all others have none.
fn check_no_votes(world: &World, vertex: &Record, index: u32) {
    let group = world.group;
    let mask = world.no_votes(vertex, index);
    let may_lack = vertex.round >= 2 && vertex.source == group.leader(vertex.round);
    if !may_lack || index >= world.m {
        return assert_eq!(mask, 0, "{vertex:?}");
    }
    let leader = group.leader_at(vertex.round - 1, index);
    if has(vertex.strong, leader) {
        return assert_eq!(mask, 0, "{vertex:?}");
    }
    assert!(group.is_quorum(mask) && group.contains(mask), "{vertex:?}");
    for signer in members(mask & !world.faulty) {
        let record = world.vertices.get(&vertex_id(vertex.round, signer));
        assert!(record.is_none_or(|record| !has(record.strong, leader)));
    }
}
