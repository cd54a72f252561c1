//! A hosting desk that begins with nothing lent and enlarges what was short, by `Sizes::enlarged` (document 02, \[4\]) or
//! by `Space::fit_enlarging`.

use compare::counts::Tally;
use compare::files::long_runs::{branches, signals};
use compare::files::wanted::random_question;
use compare::files::wide::{wide, wide_kinds, wide_with_inclusions};
use compare::{cases, random_file, Prng, Shape};
use gumbyra::{Refusal, Sizes, Space, Verdict, MOST_RECORDS};

const NOTHING: Sizes = Sizes { nodes: 0, edges: 0, alternatives: 0, elements: 0, links: 0 };
const SHAPE: Shape = Shape { names: 2, roles: 1, compound: 16, rules: 4, text: 8 };

/// How often the desk had to ask, and how the sizes ended.
struct Served {
    asked: usize,
    sizes: Sizes,
}

/// Asks until there is a verdict, or no larger area helps. The outcome must be that of the largest areas.
fn serve(file: &[u8]) -> Served {
    let mut served = Served { asked: 0, sizes: NOTHING };
    loop {
        served.asked += 1;
        let mut space = Space::with(served.sizes);
        let outcome = space.fit(file);
        let larger = outcome.err().and_then(|refusal| served.sizes.enlarged(refusal));
        let Some(larger) = larger else {
            assert_eq!(outcome, Space::with(Sizes::MOST).fit(file), "{file:02x?} in {:?}", served.sizes);
            return served;
        };
        assert_eq!(grown(&served.sizes, &larger), 1, "only what was short: {:?}, {larger:?}", served.sizes);
        served.sizes = larger;
    }
}

/// In how many of the three work areas and the example there is more.
fn grown(before: &Sizes, after: &Sizes) -> usize {
    let example = (after.elements, after.links) != (before.elements, before.links);
    let work = [after.nodes > before.nodes, after.edges > before.edges, after.alternatives > before.alternatives];
    work.into_iter().chain([example]).filter(|&more| more).count()
}

/// At most twice what the run uses is lent, and nothing of which nothing is used.
fn check_thrift(file: &[u8], sizes: &Sizes) {
    let mut space = Space::with(Sizes::MOST);
    let used = space.fit(file).unwrap_or_else(|refusal| panic!("{refusal}: {file:02x?}")).used();
    let lent = [sizes.nodes, sizes.edges, sizes.alternatives];
    for (lent, used) in lent.into_iter().zip([used.nodes, used.edges, used.alternatives]) {
        assert!(used <= lent && (used == 0 && lent == 0 || lent < 2 * used), "{lent} for {used}: {file:02x?}");
    }
}

#[test]
fn random_files_are_served() {
    let mut prng = Prng::new(111);
    let (mut most, mut all, files) = (0, 0, 2000);
    for _ in 0..files {
        let file = random_file(&mut prng, SHAPE);
        let served = serve(&file);
        check_thrift(&file, &served.sizes);
        all += served.asked;
        most = most.max(served.asked);
    }
    println!("{files} files: asked {all} times, {most} times for one");
    assert!(most >= 20, "no file of many records");
}

#[test]
fn a_desk_gives_up_where_no_larger_area_helps() {
    let (nodes, edges) = (serve(&branches(13).file), serve(&signals(10).file));
    assert_eq!((nodes.sizes.nodes, edges.sizes.edges), (MOST_RECORDS, MOST_RECORDS));
    let refusal = |served: &Served, file: &[u8]| Space::with(served.sizes).fit(file).expect_err("no verdict");
    assert_eq!(refusal(&nodes, &branches(13).file), Refusal::NodesShort { lent: MOST_RECORDS });
    assert_eq!(refusal(&edges, &signals(10).file), Refusal::EdgesShort { lent: MOST_RECORDS });
}

/// One call is as good as asking again and again: in the same sizes at the end, with the outcome of the largest areas.
#[test]
fn one_call_serves() {
    let mut prng = Prng::new(112);
    for _ in 0..1000 {
        let file = random_file(&mut prng, SHAPE);
        let mut space = Space::with(NOTHING);
        assert_eq!(space.fit_enlarging(&file), Space::with(Sizes::MOST).fit(&file), "{file:02x?}");
        assert_eq!(space.sizes(), serve(&file).sizes, "{file:02x?}");
    }
    for file in [branches(13).file, signals(10).file] {
        let mut space = Space::with(NOTHING);
        assert_eq!(space.fit_enlarging(&file), Space::with(Sizes::MOST).fit(&file));
        assert_eq!(space.sizes(), serve(&file).sizes);
    }
}

/// Files and lists of all sorts, one after the other in one space, which keeps what it has.
#[test]
fn one_space_serves_all() {
    let mut prng = Prng::new(113);
    let (mut space, mut most, mut tally) = (Space::with(NOTHING), Space::with(Sizes::MOST), Tally::default());
    for _ in 0..10_000 {
        let (file, list) = random_question(&mut prng, SHAPE);
        let before = space.sizes();
        let outcome = space.fit_wanted_enlarging(&file, &list);
        assert_eq!(outcome, most.fit_wanted(&file, &list), "{file:02x?} wanting {list:?}");
        let mut cases = vec![
            ("can", matches!(outcome, Ok(Verdict::Can { .. }))),
            ("cannot", matches!(outcome, Ok(Verdict::Cannot { .. }))),
            ("refused by a check", outcome.is_err_and(|refusal| matches!(refusal.number(), 1..=8 | 16))),
        ];
        cases.push(("enlarged", grown(&before, &space.sizes()) > 0));
        tally.add(cases);
    }
    tally.assert_often("files with lists", 10);
}

/// In the largest sizes every example has room.
#[test]
fn the_largest_areas_hold_every_example() {
    let mut space = Space::with(Sizes::MOST);
    let (mut examples, mut most) = (0, [0; 2]);
    let vectors = cases().into_iter().map(|case| case.file);
    for file in vectors.chain(wide()).chain(wide_kinds()).chain(wide_with_inclusions()) {
        match space.fit(&file) {
            Ok(Verdict::Can { used, example }) => {
                let (elements, links) = (example.elements().len(), example.links().len());
                assert!(elements <= used.nodes && links <= used.edges, "{file:02x?}");
                most = [most[0].max(elements), most[1].max(links)];
                examples += 1;
            }
            outcome => assert!(!matches!(outcome, Err(Refusal::ExampleTooLong { .. })), "{file:02x?}"),
        }
    }
    println!("{examples} examples, of at most {} elements, and {} links", most[0], most[1]);
    assert!(examples >= 300 && most[0] > Sizes::USUAL.elements && most[1] > 2000);
}
