//! Simulated groups: nobody honest is caught, no state of the library has what the rules do not give,
//! and where lists part, the sheets show by whom.

mod common;

use common::*;
use reference::group::{has, Group};
use reference::record::Record;
use reference::rng::Rng;
use reference::simulate::{simulate, simulate_proposing, Options, Run};
use reference::Call;
use sidebyside::evidence::Signed;
use sidebyside::pair::{Pair, SIDES};
use sidebyside::report::Report;

/// What was seen over a number of groups.
#[derive(Debug, Default)]
struct Seen {
    parted: usize,
    behind: usize,
    caught: usize,
    by_first_message: usize,
}

fn stored_of(run: &Run) -> Pair {
    stored_pair(
        &words_after(&run.replicas[0]),
        &words_after(&run.replicas[1]),
    )
}

/// The same states as inputs of `sheetlog`.
fn lines_of(run: &Run) -> Pair {
    Pair {
        left: of_lines(&run.replicas[0]),
        right: of_lines(&run.replicas[1]),
    }
}

/// Calls that lines stand for alone.
fn watchers(options: Options) -> Options {
    Options {
        members: 0,
        bundles: 0,
        buffers: 0,
        ..options
    }
}

fn check_pair(pair: &Pair, premises: bool, faulty: u32, seen: &mut Seen) {
    let report = report(pair);
    assert!(pair.are_comparable());
    assert_eq!(report.faults, [vec![], vec![]]);
    assert_eq!(report.print().contains(" PART at entry "), report.parts());
    seen.parted += usize::from(report.parts());
    seen.caught += report.caught().len();
    let firsts = report.evidence.two_records.iter();
    seen.by_first_message += firsts.filter(|found| found.second.record.is_none()).count();
    if premises {
        assert!(pair.agrees());
        check_faulty(&report, faulty);
        seen.behind += usize::from(pair.left.journal.len() != pair.right.journal.len());
    }
    assert_eq!(pair.agrees(), !report.parts());
    if report.parts() {
        check_explained(&report);
    }
}

/// Who is caught by records and certificates is faulty. Notes are drawn for anybody.
fn check_faulty(report: &Report, faulty: u32) {
    let two = report.evidence.two_records.iter();
    let both = report.evidence.votes_and_no_votes.iter();
    let certified = both.filter(|found| found.no_vote.1 != Signed::Note);
    let caught = two
        .map(|found| found.member)
        .chain(certified.map(|found| found.member));
    caught.for_each(|member| assert!(has(faulty, member), "{}", report.print()));
}

/// Lists part only where more than f members are caught, or the sides hold different vertices.
fn check_explained(report: &Report) {
    let f = report.pair.group().map_or(0, Group::f) as usize;
    assert!(report.caught().len() > f || report.evidence.has_two_vertices());
}

fn run_groups(options: &Options, seeds: std::ops::Range<u64>) -> Seen {
    let mut seen = Seen::default();
    for n in SIZES {
        for seed in seeds.clone() {
            let run = simulate(seed, n, options);
            check_pair(&stored_of(&run), options.premises, run.faulty, &mut seen);
            let run = simulate(seed, n, &watchers(options.clone()));
            let (stored, lines) = (stored_of(&run), lines_of(&run));
            for side in SIDES {
                assert_eq!(stored.get(side).words, lines.get(side).words);
            }
            check_pair(&lines, options.premises, run.faulty, &mut seen);
        }
    }
    seen
}

/// All that is sent comes from the members' own states.
#[test]
fn members_that_keep_the_rules_are_not_caught() {
    let mut behind = 0;
    for n in SIZES {
        for options in [Options::typical(), Options::rough()] {
            let run = simulate_proposing(u64::from(n), n, &options);
            let states: Vec<Vec<u32>> = run
                .replicas
                .iter()
                .map(|calls| words_after(calls))
                .collect();
            for others in states.windows(2) {
                let pair = stored_pair(&others[0], &others[1]);
                let report = report(&pair);
                assert!(pair.agrees());
                assert!(report.evidence.is_empty(), "{}", report.print());
                assert_eq!(report.faults, [vec![], vec![]]);
                behind += usize::from(pair.left.journal != pair.right.journal);
            }
        }
    }
    assert!(behind > 10, "{behind}");
}

#[test]
fn calm_groups_agree() {
    let seen = run_groups(&Options::calm(), 0..2);
    assert_eq!(seen.parted, 0);
}

#[test]
fn only_faulty_members_are_caught() {
    for options in [Options::typical(), Options::split(), Options::rough()] {
        let seen = run_groups(&options, 0..3);
        assert_eq!(seen.parted, 0);
        assert!(seen.behind > 10, "{seen:?}");
        assert!(seen.caught > 20 && seen.by_first_message > 20, "{seen:?}");
    }
}

#[test]
fn lists_that_part_are_explained() {
    let seen = run_groups(&Options::wild(), 0..8);
    assert!(seen.parted > 10, "{seen:?}");
}

/// A group in which each vertex is one, and votes, no-votes and first messages are any.
struct AnyVotes {
    rng: Rng,
    group: Group,
    vertices: Vec<Record>,
}

impl AnyVotes {
    fn draw(seed: u64, n: u32, rounds: u32) -> Option<AnyVotes> {
        let mut world = AnyVotes {
            rng: Rng::new(seed),
            group: Group::new(n)?,
            vertices: Vec::new(),
        };
        for round in 1..=rounds {
            for source in 0..n {
                let record = world.record(round, source);
                world.vertices.push(record);
            }
        }
        Some(world)
    }

    /// A record with any strong mask and any certificates that it needs.
    fn record(&mut self, round: u32, source: u32) -> Record {
        let (all, quorum) = (self.group.all(), self.group.quorum());
        let mut any = || self.rng.subset(all, 60, quorum);
        let mut record = Record {
            round,
            source,
            strong: if round == 1 { 0 } else { any() },
            ..Record::default()
        };
        if record.lacks_previous_leader(self.group) {
            record.timeouts = any();
            if source == self.group.leader(round) {
                record.no_votes = any();
            }
        }
        record
    }

    /// Some of the vertices and some first messages, half of which are other records.
    fn state(&mut self) -> Vec<u32> {
        let mut calls = vec![Call::Open(self.group.n(), 0)];
        for vertex in self.vertices.clone() {
            if self.rng.percent(30) {
                let other = self.record(vertex.round, vertex.source);
                let sent = if self.rng.percent(50) { vertex } else { other };
                calls.push(Call::First(sent.words().to_vec()));
            }
            if self.rng.percent(95) {
                calls.push(Call::Vertex(vertex.words().to_vec()));
            }
        }
        words_after(&calls)
    }
}

/// With one vertex for each round and member, lists part only by more than f members, all of whom
/// the states show.
#[test]
fn lists_that_part_by_votes_alone_are_explained() {
    for n in SIZES {
        let mut parted = 0;
        for seed in 0..3000 {
            let mut world = AnyVotes::draw(seed, n, 6).expect("the size is legal");
            let pair = stored_pair(&world.state(), &world.state());
            let report = report(&pair);
            assert!(!report.evidence.has_two_vertices());
            assert_eq!(report.faults, [vec![], vec![]]);
            parted += usize::from(report.parts());
            let is_above_f = report.caught().len() > world.group.f() as usize;
            assert!(is_above_f || pair.agrees(), "{}", report.print());
        }
        assert!(parted > 5, "n {n}: {parted} parted");
    }
}
