//! The sample rule files: an answering function against what is printed for each, and `needs.fit` in areas that are enlarged.

use crate::{check_example, Answering};
use plain::{print, Answer, Area, Lent, Used};
use std::path::{Path, PathBuf};

fn folder() -> PathBuf {
    Path::new(env!("CARGO_MANIFEST_DIR")).join("../../samples")
}

/// The rule files and what is printed for them.
fn samples() -> Vec<(PathBuf, Vec<u8>, String)> {
    let entries = std::fs::read_dir(folder()).expect("samples");
    let paths = entries.map(|entry| entry.expect("an entry of samples").path());
    let files = paths.filter(|path| path.extension().is_some_and(|extension| extension == "fit"));
    let read = |path: PathBuf| {
        let file = std::fs::read(&path).expect("a sample");
        let printed = std::fs::read_to_string(path.with_extension("txt")).expect("what is printed for it");
        (path, file, printed)
    };
    files.map(read).collect()
}

/// In the areas of the printing program each sample gets what is in the text beside it.
pub fn check_samples(mut answer: impl Answering) {
    let samples = samples();
    assert!(samples.len() >= 17, "the samples are there");
    for (path, file, printed) in samples {
        let answer = answer(&file, &Lent::by_program());
        assert_eq!(print(&answer), printed, "{}", path.display());
        check_example(&file, &answer);
    }
}

/// `needs.fit` uses 1,369 nodes and 1,812 edges: the printing program lends fewer nodes. One that lends enough gets the assembly of
/// `pump.fit`, and the other areas have no say.
pub fn check_needs(mut answer: impl Answering) {
    let read = |name: &str| std::fs::read(folder().join(name)).expect("a sample");
    let (needs, pump) = (read("needs.fit"), read("pump.fit"));
    let lent = |nodes: usize, edges: usize| Lent::records(nodes, edges, 0, 8192, 49152);
    let mut answer_in = |nodes, edges| answer(&needs, &lent(nodes, edges));
    let short = |area, lent| Answer::Short { area, lent };
    assert_eq!(answer_in(1024, 4096), short(Area::Nodes, 1024));
    assert_eq!(answer_in(1368, 4096), short(Area::Nodes, 1368));
    assert_eq!(answer_in(1368, 1812), short(Area::Nodes, 1368));
    assert_eq!(answer_in(1369, 1811), short(Area::Edges, 1811));
    assert_eq!(answer_in(0, 0), short(Area::Nodes, 0));
    let whole = answer_in(1369, 1812);
    check_example(&needs, &whole);
    let Answer::Can { used, links, .. } = whole else { panic!("{whole:?}") };
    assert_eq!(used, Used { nodes: 1369, edges: 1812, alternatives: 0 });
    let Answer::Can { links: of_pump, .. } = answer(&pump, &Lent::by_program()) else { panic!("pump.fit can be had") };
    assert_eq!(links, of_pump);
}
