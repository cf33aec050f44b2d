//! Cases worked by hand on four members. Two leaders are members 0 and 1 in round 1, 1 and 2 in round 2,
//! 2 and 3 in round 3; of three there is one more. A model looks at no certificates, so those against
//! leaders 1 and 2 are left out.

use reference::group::Group;
use reference::growing::{GrowingLists, Written};
use reference::record::Record;
use reference::{Call, Model};

use crate::common::{plain, record};
use crate::follower::Follower;

fn four_members() -> Group {
    Group::new(4).expect("the size is legal")
}

/// Four members with m leaders in a round, and all four vertices of round 1.
fn first_round(m: u32) -> Follower {
    let mut follower = Follower::new(four_members(), m, Written);
    give_vertices(&mut follower, &[0, 1, 2, 3].map(|p| plain(1, p, 0)));
    follower
}

fn vertex(record: &Record) -> Call {
    Call::Vertex(record.words().to_vec())
}

fn first(record: &Record) -> Call {
    Call::First(record.words().to_vec())
}

fn give(follower: &mut Follower, call: Call) {
    follower.take(&call);
    assert_eq!(*follower.kept(), follower.model_lists(), "{call:?}");
}

fn give_vertices(follower: &mut Follower, records: &[Record]) {
    records
        .iter()
        .for_each(|record| give(follower, vertex(record)));
}

fn give_firsts(follower: &mut Follower, records: &[Record]) {
    records
        .iter()
        .for_each(|record| give(follower, first(record)));
}

fn assert_lists(follower: &Follower, leaders: &[u32], journal: &[u32]) {
    let kept = follower.kept();
    assert_eq!((&kept.leaders[..], &kept.journal[..]), (leaders, journal));
}

#[test]
fn leaders_by_index() {
    let group = four_members();
    let of_round = |round| [0, 1, 2].map(|index| group.leader_at(round, index));
    assert_eq!(of_round(1), [0, 1, 2]);
    assert_eq!(of_round(4), [3, 0, 1]);
    assert_eq!(of_round(32), [3, 0, 1]);
    assert_eq!(group.leader_id_at(4, 2), 65);
    assert_eq!((group.leader(4), group.leader_id(4)), (3, 67));
    assert_eq!([1, 2, 3].map(|m| group.leader_mask(4, m)), [8, 9, 11]);
}

/// 2/0 lacks 1/1, so 1/1 has its third voter only in 2/3.
#[test]
fn the_last_round_grows_directly() {
    let votes = [plain(2, 0, 13), plain(2, 1, 7), plain(2, 2, 7)];
    for (m, grown) in [(1, &[16][..]), (2, &[16, 17]), (3, &[16, 17, 18])] {
        let mut follower = first_round(m);
        give_firsts(&mut follower, &votes);
        assert_lists(&follower, &[16], &[16]);
        give_firsts(&mut follower, &[plain(2, 3, 15)]);
        assert_lists(&follower, grown, grown);
    }
}

/// Of 1/1 only 2/1 is seen to vote, so 1/0 alone is listed; the walk from 2/1 reaches both.
#[test]
fn the_last_round_grows_by_a_later_walk() {
    for (m, grown) in [(2, &[16, 17, 33][..]), (3, &[16, 17, 18, 33])] {
        let mut follower = first_round(m);
        let votes = [plain(2, 0, 13), plain(2, 1, 7), plain(2, 3, 13)];
        give_vertices(&mut follower, &votes);
        assert_eq!(follower.kept().leaders, [16]);
        give_firsts(&mut follower, &[0, 1, 3].map(|p| plain(3, p, 11)));
        assert_lists(&follower, grown, &[16, 17, 18, 33]);
    }
}

/// 1/1 has three voters, and 1/0, which is there, has none.
#[test]
fn a_second_leader_is_not_listed_without_the_first() {
    for m in [2, 3] {
        let mut follower = first_round(m);
        let votes = [0, 2, 3].map(|p| record(2, p, 14, 7, 0));
        give_vertices(&mut follower, &votes);
        assert_lists(&follower, &[], &[]);
    }
}

/// 2/1 reaches 1/1 and 1/2 and not 1/0: round 1 gives nothing.
#[test]
fn a_round_whose_main_leader_is_skipped_gives_nothing() {
    for m in [2, 3] {
        let mut follower = first_round(m);
        let lacking = [0, 2].map(|p| record(2, p, 14, 7, 0));
        give_vertices(&mut follower, &lacking);
        give_vertices(&mut follower, &[record(2, 1, 14, 7, 13)]);
        give_firsts(&mut follower, &[0, 1, 2].map(|p| plain(3, p, 7)));
        assert_lists(&follower, &[33, 34], &[17, 18, 19, 33, 34]);
    }
}

/// 2/1 lacks 1/1, so the run of round 1 ends at 1/0, though 1/2 is reached.
#[test]
fn a_run_ends_at_the_first_leader_not_reached() {
    for m in [2, 3] {
        let mut follower = first_round(m);
        give_vertices(&mut follower, &[plain(2, 1, 13)]);
        give_firsts(&mut follower, &[0, 1, 2].map(|p| plain(3, p, 7)));
        assert_lists(&follower, &[16, 33], &[16, 18, 19, 33]);
    }
}

/// 3/2 reaches 1/1 by 2/0, and 2/1 does not: at round 1 the walk stands on 2/1.
#[test]
fn runs_are_reached_from_the_main_leader_last_taken() {
    let mut follower = first_round(2);
    let second = [plain(2, 0, 15), plain(2, 1, 13), plain(2, 2, 13)];
    give_vertices(&mut follower, &second);
    give_vertices(&mut follower, &[plain(3, 2, 7)]);
    assert_lists(&follower, &[16], &[16]);
    give_firsts(&mut follower, &[0, 1, 3].map(|p| plain(4, p, 7)));
    let journal = [16, 18, 19, 33, 34, 17, 32, 50];
    assert_lists(&follower, &[16, 33, 34, 50], &journal);
}

/// All is fed before anything is committed. 1/0 and 1/1 have three voters, and so has 2/1, which lacks
/// 1/0 against the premises: another order would leave leaders of round 1 out.
#[test]
fn of_several_ready_leaders_the_lowest_round_goes_first_and_in_it_the_lowest_index() {
    let rounds = [
        [0, 1, 2].map(|p| vertex(&plain(1, p, 0))),
        [
            vertex(&plain(1, 3, 0)),
            vertex(&plain(2, 0, 7)),
            vertex(&record(2, 1, 14, 7, 14)),
        ],
        [0, 2, 3].map(|p| first(&plain(2, p, 7))),
        [0, 1, 3].map(|p| first(&plain(3, p, 11))),
    ];
    let mut model = Model::opened(four_members(), 2);
    rounds.iter().flatten().for_each(|call| model.feed(call, 0));
    let mut kept = GrowingLists::<Written>::default();
    assert_eq!(kept.commit_all(&model), [[16], [17], [33]]);
    assert_eq!(kept.lists().journal, [16, 17, 18, 19, 33]);
    assert_eq!(kept.commit_all(&model), Vec::<Vec<u32>>::new());
}
