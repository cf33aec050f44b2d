//! The page: well-formed, and as many vertices and edges as the states have, on groups drawn from seeds.

mod common;

use common::*;
use reference::layout::*;
use reference::record::Record;
use reference::simulate::{simulate, Options};
use reference::Call;
use sidebyside::pair::{Beside, Pair, Side, SIDES};
use sidebyside::report::Report;

fn page(pair: &Pair, names: [&str; 2]) -> String {
    page_of(&Report::new(pair, names))
}

/// How many elements of a class a side's graph has.
fn count(tags: &[&str], side: Side, class: &str) -> usize {
    let graph = format!("id=\"{side}\"");
    let start = tags.iter().position(|tag| tag.contains(&graph));
    let graph = &tags[start.expect("the side is drawn") + 1..];
    let has = |tag: &str| {
        let value = tag
            .split("class=\"")
            .nth(1)
            .and_then(|rest| rest.split('"').next());
        value.is_some_and(|value| value.split(' ').any(|one| one == class))
    };
    let is_graph = |tag: &&&str| !tag.starts_with("svg ");
    graph
        .iter()
        .take_while(is_graph)
        .filter(|tag| has(tag))
        .count()
}

fn check(pair: &Pair) {
    let page = page(pair, ["left", "right"]);
    let tags = tags(&page);
    let report = report(pair);
    let columns = SIDES.map(|side| pair.get(side).vertices().keys().next_back().copied());
    let columns = columns
        .into_iter()
        .flatten()
        .map(round_of)
        .fold(2, u32::max);
    for side in SIDES {
        let count = |class| count(&tags, side, class);
        let here = pair.get(side);
        let vertices = here.vertices();
        let sum = |edges: fn(&Record) -> usize| vertices.values().map(edges).sum::<usize>();
        assert_eq!(count("vertex"), vertices.len());
        assert_eq!(
            count("strong"),
            sum(|record| record.strong_parents().count())
        );
        assert_eq!(count("weak"), sum(|record| record.weak_parents().count()));
        assert_eq!(count("differs"), differing_edges(pair, side));
        assert_eq!(count("committed"), here.leaders.len());
        assert_eq!(count("entry"), here.journal.len());
        assert_eq!(count("caught"), report.caught().len());
        let alone = vertices
            .keys()
            .filter(|&&id| pair.beside(side, id) != Beside::Same);
        assert_eq!(count("badge"), alone.count());
        assert_eq!(count("ring") > 0, report.parts());
        let state = here.decoded.as_ref().expect("the size is legal");
        let reached = state.leader_list.windows(2);
        let reached = reached.filter(|pair| state.has_strong_path(pair[1], pair[0]));
        assert_eq!(count("chain"), reached.count());
        let lacking = (1..=columns).filter(|&round| !state.holds(state.group.leader_id(round)));
        assert_eq!(count("lacking"), lacking.count());
    }
}

/// The edges of vertices that both sides hold which only this side's have.
fn differing_edges(pair: &Pair, side: Side) -> usize {
    let there = pair.get(side.other()).vertices();
    let both = pair.get(side).vertices().iter();
    let both = both.filter_map(|(id, here)| Some((here, there.get(id)?)));
    both.map(|(here, there)| {
        let strong = here.strong & !there.strong;
        let is_new = |id: &u32| !there.weak_parents().any(|other| other == *id);
        strong.count_ones() as usize + here.weak_parents().filter(is_new).count()
    })
    .sum()
}

#[test]
fn a_page_has_all_vertices_and_edges() {
    for n in SIZES {
        for options in [Options::calm(), Options::rough(), Options::wild()] {
            let run = simulate(3, n, &options);
            let [left, right] = [0, 1].map(|at| words_after(&run.replicas[at]));
            check(&stored_pair(&left, &right));
        }
    }
}

/// Names of any characters, and two groups of different size.
#[test]
fn names_are_escaped() {
    let [four, sixteen] =
        [4, 16].map(|n| words_after(&simulate(1, n, &Options::calm()).replicas[0]));
    let pair = stored_pair(&four, &sixteen);
    check(&pair);
    let odd = "<b>&\"'\u{1}\u{202e}</b>\u{fffe}]]>";
    let page = page(&pair, [odd, "<!--"]);
    tags(&page);
    assert!(page.contains("&lt;b&gt;&amp;&quot;&#39;&lt;/b&gt;]]&gt;"));
    assert!(!page.contains(['\u{1}', '\u{202e}', '\u{fffe}']));
}

/// Nothing is fetched, and nothing runs.
#[test]
fn a_page_stands_alone() {
    let state = words_after(&simulate(1, 4, &Options::calm()).replicas[0]);
    let page = page(&stored_pair(&state, &state), ["left", "right"]);
    for tag in tags(&page) {
        assert!(!["script", "link", "img", "use", "iframe"]
            .iter()
            .any(|name| tag.starts_with(name)));
        assert!(!tag.contains("href") && !tag.contains("src="), "{tag}");
    }
    assert!(!page.contains("@import") && !page.contains("url("));
}

/// All that the sheet says of a vertex stands in its tooltip.
#[test]
fn tooltips_have_the_details() {
    let leader = record(3, 2, 14).with_tag(0x0403_0201).with_weak(&[16]);
    let calls = [
        vec![Call::Open(4, 0)],
        vertices(1, &ALL, 0),
        vertices(2, &[1, 2, 3], 15),
        vec![vertex(leader)],
    ];
    let state = words_after(&calls.concat());
    let empty = words_after(&[Call::Open(4, 0)]);
    let page = page(&stored_pair(&state, &empty), ["left", "right"]);
    let digest = format!("01020304{}", "0".repeat(56));
    for text in [
        "<title>ref 50 (round 3, member 2), the leader of its round\nstrong parents: 2/1, 2/2, 2/3\n\
         weak parents: 1/0\ntimeout signers: no member\nno-vote signers: no member\n",
        &format!("digest: {digest}\nnot ordered\nnot in the leader list\nthe right sheet does not hold it</title>"),
        "ordered, journal entry 1\nleader list entry 1\n",
        "<title>The leader of round 1, member 0, is not held.</title>",
    ] {
        assert!(page.contains(text), "{text}");
    }
}

/// A number in another colour where the journals have a vertex at two places, and an outline in it where
/// only one leader list has a leader.
#[test]
fn what_is_ordered_otherwise_is_marked() {
    let calls = [
        vec![Call::Open(4, 0)],
        vertices(1, &ALL, 0),
        vertices(2, &ALL, 15),
        vertices(3, &ALL, 15),
    ];
    let calls = calls.concat();
    let ahead = words_after(&calls);
    let behind = words_after(&calls[..calls.len() - 2]);
    let page = page(&stored_pair(&ahead, &behind), ["left", "right"]);
    let tags = tags(&page);
    assert_eq!(
        (
            count(&tags, Side::Left, "moved"),
            count(&tags, Side::Right, "moved")
        ),
        (4, 4)
    );
    assert_eq!(count(&tags, Side::Left, "listed-alone"), 1);
    assert_eq!(count(&tags, Side::Right, "listed-alone"), 0);
}

/// A state that cannot be drawn, and one that can in part, are said to be so.
#[test]
fn damaged_states_are_said_to_be_so() {
    let good = words_after(&simulate(1, 4, &Options::calm()).replicas[0]);
    let mut no_group = good.clone();
    no_group[N] = 5;
    let mut in_part = good.clone();
    in_part[cell_word(2, 1, CELL_STRONG)] = 1;
    let drawn = page(&stored_pair(&in_part, &no_group), ["left", "right"]);
    tags(&drawn);
    for text in [
        "It cannot be drawn.",
        "It is drawn as it stands",
        "The leader of round 2, member 1, is held, with a record that fails the questions.",
    ] {
        assert!(drawn.contains(text), "{text}");
    }
}
