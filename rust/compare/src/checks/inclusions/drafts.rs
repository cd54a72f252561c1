//! Drafts with kind 7 rows (document 02, \[6\]): "A converted draft keeps all its kind 7 rows, in their order, before the other rows." A
//! converting function by hand and on random drafts: what it writes are these rows, and then what becomes of the draft without them; and
//! what an answering function then says is true of the draft.

use crate::checks::drafts::results::{check_meaning, check_result};
use crate::checks::drafts::verdicts::{check_converted, Counts};
use crate::files::inclusions::with_inclusions;
use crate::files::parts::{Parts, INCLUSION};
use crate::files::{encode, Row};
use crate::sizes::{CODES, LONGEST_FILE, MOST_ROWS};
use crate::{random_area, random_draft, Answering, Conversion, Converting, DraftCounts, Prng, Shape};
use plain::{Answer, Lent};

/// Rows, rules and wanted row, of a draft or of a rule file.
type Rows = (&'static [Row], &'static [u8], u8);

const A: Row = [1, 0, 0, 0];
const NOT_A: Row = [2, 0, 0, 0];
const B: Row = [1, 0, 1, 0];

/// What is tried, the draft and what becomes of it.
const BY_HAND: [(&str, Rows, Rows); 7] = [
    ("before the others", (&[A, [7, 2, 0, 0]], &[], 0), (&[[7, 2, 0, 0], A], &[], 1)),
    ("where it was", (&[[7, 2, 0, 0], A], &[1], 1), (&[[7, 2, 0, 0], A], &[1], 1)),
    ("in their order", (&[[7, 2, 0, 0], A, [7, 0, 31, 0]], &[], 1), (&[[7, 2, 0, 0], [7, 0, 31, 0], A], &[], 2)),
    (
        "the same turned round is another row",
        (&[[7, 3, 1, 0], A, [7, 2, 0, 0], [7, 5, 5, 0]], &[1], 1),
        (&[[7, 3, 1, 0], [7, 2, 0, 0], [7, 5, 5, 0], A], &[3], 3),
    ),
    (
        "rows without need go, these stay",
        (&[A, B, [6, 0, 1, 0], [7, 0, 2, 0], [8, 0, 0, 0]], &[], 4),
        (&[[7, 0, 2, 0], NOT_A], &[], 1),
    ),
    (
        "if, not and all",
        (&[A, [5, 0, 0, 0], [7, 2, 0, 0], B, [9, 0, 3, 1], [8, 0, 4, 0]], &[4], 5),
        (&[[7, 2, 0, 0], [2, 0, 1, 0], A, [5, 0, 2, 0], [4, 0, 1, 3], B, NOT_A, [6, 0, 6, 0], [3, 0, 5, 7]], &[4], 8),
    ),
    (
        "a role is not turned round by not",
        (&[A, [7, 0, 1, 0], [6, 0, 0, 0], [8, 0, 2, 0]], &[], 3),
        (&[[7, 0, 1, 0], NOT_A, [5, 0, 1, 0]], &[], 2),
    ),
];

/// Checks what becomes of small drafts, in an area just enough and one byte short.
pub fn check_by_hand(mut convert: impl Converting) {
    for (what, draft, result) in BY_HAND {
        let [draft, file] = [draft, result].map(|(rows, rules, wanted)| encode(b"hose", rows, rules, wanted));
        assert_eq!(convert(&draft, file.len()).as_ref(), Ok(&file), "{what}");
        assert_eq!(convert(&draft, file.len() - 1), Err(12), "{what}");
    }
}

/// Checks that kind 7 rows count among the 64: a draft of so many of them and a tower of "if" that needs the other rows.
pub fn check_most_rows(mut convert: impl Converting) {
    // A tower of n rows "if" over a name writes 2 n + 1 rows: each "if" and its opposite, but the last once, and the name both ways.
    for ifs in 1..=20u8 {
        let own = 2 * usize::from(ifs) + 1;
        let tower: Vec<Row> = std::iter::once(A).chain((0..ifs).map(|k| [9, 0, k, k])).collect();
        for inclusions in [MOST_ROWS - own, MOST_ROWS - own + 1] {
            if inclusions + tower.len() > MOST_ROWS {
                continue;
            }
            let kept: Vec<Row> =
                (0..inclusions as u8).map(|k| [INCLUSION, k % CODES, (k + k / CODES) % CODES, 0]).collect();
            let draft =
                Parts { text: Vec::new(), rows: tower.clone(), rules: Vec::new(), wanted: ifs }.after(&kept).bytes();
            let rows = convert(&draft, LONGEST_FILE).map(|file| Parts::of(&file).rows.len());
            let expected = if inclusions + own <= MOST_ROWS { Ok(MOST_ROWS) } else { Err(12) };
            assert_eq!(rows, expected, "{inclusions} kind 7 rows and {own} others");
        }
    }
}

/// Small drafts, drafts that need nearly 64 rows, and how many of them.
const SHAPES: [(Shape, usize); 4] = [
    (Shape { names: 1, roles: 2, compound: 10, rules: 2, text: 8 }, 8_000),
    (Shape { names: 2, roles: 2, compound: 14, rules: 3, text: 300 }, 12_000),
    (Shape { names: 2, roles: 3, compound: 16, rules: 4, text: 8 }, 12_000),
    (Shape { names: 6, roles: 16, compound: 48, rules: 64, text: 3000 }, 8_000),
];

/// How often things happened.
#[derive(Default, Debug)]
struct Kept {
    /// The converted file keeps kind 7 rows.
    kept: usize,
    /// In the draft another row stood before one of them.
    moved: usize,
    begins: usize,
    /// Refusal 12 only because of them: in an area that suffices for any file, too many rows; and too many bytes or too short an area.
    too_many_rows: usize,
    too_long: usize,
    /// Converted, "cannot", and "can" without them.
    forbidden: usize,
}

/// Checks what becomes of random drafts with kind 7 rows and what the engine says of it, prints how often things happened and fails if
/// one of them was rare.
pub fn check_random_drafts(mut convert: impl Converting, mut answer: impl Answering) {
    let (mut counts, mut worlds, mut kept) = (DraftCounts::default(), Counts::default(), Kept::default());
    for (seed, (shape, drafts)) in SHAPES.into_iter().enumerate() {
        let mut prng = Prng::new(141 + seed as u64);
        for _ in 0..drafts {
            let draft = random_draft(&mut prng, shape);
            let draft = with_inclusions(&mut prng, &draft, shape.roles);
            let area = random_area(&mut prng, &draft);
            let conversion = convert(&draft, area);
            assert_eq!(conversion, expected(&mut convert, &draft, area, &mut kept), "{draft:02x?} in {area} bytes");
            assert_eq!(conversion, plain::convert(&draft, area), "{draft:02x?} in {area} bytes");
            counts.count(&draft, area, &conversion);
            if let Ok(file) = convert(&draft, LONGEST_FILE) {
                check_result(&draft, &file);
                check_meaning(&draft, &file, shape, &mut prng);
                if shape.compound <= 16 {
                    let given = check_converted(&mut answer, &draft, &file, &mut prng, &mut worlds);
                    kept.forbidden += usize::from(is_forbidden(&mut answer, &file, &given));
                }
            }
        }
    }
    println!("{kept:?}\n{counts:?}\n{worlds:?}");
    worlds.assert_often();
    let Kept { kept, moved, begins, too_many_rows, too_long, forbidden } = kept;
    assert!([kept, moved, begins, too_long].iter().all(|&times| times >= 2000), "few drafts keep kind 7 rows");
    assert!(too_many_rows >= 300 && forbidden >= 300, "few drafts in which kind 7 rows matter");
}

/// What becomes of a draft, told by what becomes of it without its kind 7 rows: these come first, and all else is as many rows later.
fn expected(convert: &mut impl Converting, draft: &[u8], area: usize, kept: &mut Kept) -> Conversion {
    let parts = Parts::of(draft);
    let inclusions = parts.inclusions();
    let without = convert(&parts.without_inclusions().bytes(), LONGEST_FILE)?;
    let whole = Parts::of(&without).after(&inclusions);
    let (rows, file) = (whole.rows.len(), whole.bytes());
    let fits = rows <= MOST_ROWS && file.len() <= area.min(LONGEST_FILE);
    let add = |count: &mut usize, happened: bool| *count += usize::from(happened && !inclusions.is_empty());
    add(&mut kept.kept, fits);
    add(&mut kept.moved, fits && parts.rows[..inclusions.len()] != inclusions);
    add(&mut kept.begins, fits && parts.rows[0][0] == INCLUSION);
    add(&mut kept.too_many_rows, rows > MOST_ROWS);
    add(&mut kept.too_long, !fits && rows <= MOST_ROWS && without.len() <= area);
    Some(file).filter(|_| fits).ok_or(12)
}

/// Is the kit forbidden by the kind 7 rows only?
fn is_forbidden(answer: &mut impl Answering, file: &[u8], given: &Answer) -> bool {
    let without = Parts::of(file).without_inclusions().bytes();
    matches!(given, Answer::Cannot { .. }) && matches!(answer(&without, &Lent::by_program()), Answer::Can { .. })
}
