//! Random files and drafts: what is told of an answer is true by its lines; and answers that were damaged.

mod common;

use common::{fit, shown};
use compare::files::inclusions::with_inclusions;
use compare::{damage, random_bytes, random_draft, random_file, Prng, Shape};
use gumbyra::{convert, Assembly, Link, Row, Sizes, Table, LONGEST_FILE};
use prose::answer::Answer;
use prose::command::Ending;
use prose::showing::{answer, file};
use std::collections::BTreeSet;

const SHAPE: Shape = Shape { names: 3, roles: 2, compound: 14, rules: 3, text: 0 };

/// Little is lent, since long runs show nothing more here.
const SIZES: Sizes = Sizes { nodes: 200, edges: 400, alternatives: 100, elements: 100, links: 200 };

/// A text that gives each row and each role code words that occur nowhere else.
fn text(rows: usize, heading: &str) -> Vec<u8> {
    let roles: String = (0..32).map(|code| format!("{code} leads by {code} to\n")).collect();
    let rows: String = (0..rows).map(|row| format!("{row} says {row}\n")).collect();
    format!("Random\nRole codes:\n{roles}{heading}\n{rows}").into_bytes()
}

/// What a page tells: of each part the rows that are true of it, the rows that are not, and the links (role code, to).
#[derive(Default)]
struct Told {
    holds: BTreeSet<u8>,
    not: BTreeSet<u8>,
    links: BTreeSet<(u8, usize)>,
}

fn told(page: &str) -> Vec<Told> {
    let mut parts: Vec<Told> = Vec::new();
    for line in page.lines().skip(3).take_while(|line| !line.is_empty()) {
        if let Some(names) = line.strip_prefix(&format!("part {}: ", parts.len())) {
            let mut part = Told::default();
            let names = names.split(", ").filter(|&names| names != "has none of the names");
            names.for_each(|words| tell(&mut part, words, true));
            parts.push(part);
            continue;
        }
        let (line, part) = (line.strip_prefix("  ").expect("a line of a part"), parts.last_mut().expect("a part"));
        match (line.strip_prefix("asked, yes: "), line.strip_prefix("asked, no: "), line.strip_prefix("leads by ")) {
            (Some(rows), _, _) => rows.split("; ").for_each(|words| tell(part, words, true)),
            (_, Some(rows), _) => rows.split("; ").for_each(|words| tell(part, words, false)),
            (_, _, Some(link)) => drop(part.links.insert(link_of(link))),
            _ => tell(part, line, true),
        }
    }
    parts
}

/// "says 5", or "not: says 5".
fn tell(part: &mut Told, words: &str, holds: bool) {
    let (words, holds) = words.strip_prefix("not: ").map_or((words, holds), |words| (words, !holds));
    let row = words.strip_prefix("says ").and_then(|row| row.parse().ok()).unwrap_or_else(|| panic!("no row: {words}"));
    let rows = if holds { &mut part.holds } else { &mut part.not };
    rows.insert(row);
}

/// "3 to part 2 (says 1)".
fn link_of(words: &str) -> (u8, usize) {
    let words: Vec<&str> = words.split(' ').collect();
    let [role, "to", "part", to, ..] = words.as_slice() else { panic!("no link: {words:?}") };
    (role.parse().expect("a role code"), to.parse().expect("a part"))
}

/// The links of a part, seen from both ends.
fn links_of(assembly: &Assembly, part: usize) -> BTreeSet<(u8, usize)> {
    let ends = assembly.links.iter().map(|link| (usize::from(link.from), link.role, usize::from(link.to)));
    let forth = ends.clone().filter(|&(from, ..)| from == part).map(|(_, role, to)| (role, to));
    let back = ends.filter(|&(.., to)| to == part).map(|(from, role, _)| (role ^ 1, from));
    forth.chain(back).collect()
}

/// Rows that are told are listed, rows that are denied are not; all names are told, and all links.
fn check_parts(table: &Table, assembly: &Assembly, page: &str) {
    let parts = told(page);
    assert_eq!(parts.len(), assembly.elements.len(), "{page}");
    for (at, part) in parts.iter().enumerate() {
        assert!(part.holds.iter().all(|&row| assembly.elements[at].contains(row)), "part {at}\n{page}");
        assert!(part.not.iter().all(|&row| !assembly.elements[at].contains(row)), "part {at}\n{page}");
        for (row, _) in (0u8..).zip(&table.rows).filter(|(_, said)| matches!(said, Row::Name(_))) {
            assert_eq!(
                part.holds.contains(&row),
                assembly.elements[at].contains(row),
                "row {row} of part {at}\n{page}"
            );
        }
        assert_eq!(part.links, links_of(assembly, at), "part {at}\n{page}");
    }
}

#[test]
fn what_is_told_of_an_answer_is_true() {
    let mut prng = Prng::new(71);
    let mut can = 0;
    for _ in 0..3_000 {
        let bytes = random_file(&mut prng, SHAPE);
        let bytes = with_inclusions(&mut prng, &bytes, SHAPE.roles);
        let mut table = Table::read(&bytes).expect("a rule file");
        table.text = text(table.rows.len(), "Rows:");
        let bytes = table.encode().expect("a rule file");
        assert!(shown(file(&bytes)).ends_with("\nThe words of the rows are those of the text, and not proved.\n"));
        let text = fit(&bytes, SIZES);
        match (Answer::read(text.as_bytes()).expect("an answer"), answer(&bytes, text.as_bytes())) {
            (Answer::Can { assembly, .. }, Ending::Shown(page)) => {
                check_parts(&table, &assembly, &page);
                can += 1;
            }
            (Answer::Cannot { .. }, Ending::Shown(page)) => assert!(page.starts_with("CANNOT: "), "{page}"),
            (Answer::Refused(refusal), Ending::Refused(lines)) => {
                assert!(lines.contains(refusal.sentence()), "{lines}")
            }
            (_, ending) => panic!("{ending:?} of\n{text}"),
        }
    }
    assert!(can > 500, "{can}");
}

/// Which rows of a draft are true of each part, by the names and links of an example alone.
fn truths(draft: &Table, file: &Table, assembly: &Assembly) -> Vec<Vec<bool>> {
    let mut within = [[false; 32]; 32];
    (0..32).for_each(|code| within[code][code] = true);
    for _ in 0..32 {
        for row in &draft.rows {
            let Row::Within { role, wider } = *row else { continue };
            for turned in 0..2 {
                let wide = within[usize::from(wider ^ turned)];
                within[usize::from(role ^ turned)].iter_mut().zip(wide).for_each(|(own, wide)| *own |= wide);
            }
        }
    }
    let mut truths = vec![Vec::new(); assembly.elements.len()];
    for &said in &draft.rows {
        let column: Vec<bool> =
            (0..truths.len()).map(|part| is_true(said, part, &truths, file, assembly, &within)).collect();
        truths.iter_mut().zip(column).for_each(|(truths, truth)| truths.push(truth));
    }
    truths
}

fn is_true(
    said: Row,
    part: usize,
    truths: &[Vec<bool>],
    file: &Table,
    assembly: &Assembly,
    within: &[[bool; 32]; 32],
) -> bool {
    let own = |row: u8| truths[part][usize::from(row)];
    let has = |name: u8| match (file.row_of_name(name), file.row_of_not_name(name)) {
        (Some(row), _) => assembly.elements[part].contains(row),
        (None, Some(row)) => !assembly.elements[part].contains(row),
        (None, None) => false,
    };
    let reached = |role: u8| {
        let links = links_of(assembly, part).into_iter();
        links.filter(move |&(code, _)| within[usize::from(code)][usize::from(role)]).map(|(_, to)| to)
    };
    match said {
        Row::Name(name) => has(name),
        Row::NotName(name) => !has(name),
        Row::Both(left, right) => own(left) && own(right),
        Row::Either(left, right) => own(left) || own(right),
        Row::All { role, row } => reached(role).all(|to| truths[to][usize::from(row)]),
        Row::Some { role, row } => reached(role).any(|to| truths[to][usize::from(row)]),
        Row::Within { .. } => false,
        Row::Not(row) => !own(row),
        Row::If(left, right) => !own(left) || own(right),
    }
}

/// Of an answer to what a draft becomes rows of the draft are told, and they are true.
#[test]
fn what_is_told_in_the_words_of_a_draft_is_true() {
    let mut prng = Prng::new(72);
    let (mut can, mut rows) = (0, 0);
    for _ in 0..3_000 {
        let mut draft = Table::read_draft(&random_draft(&mut prng, SHAPE)).expect("a draft");
        draft.text = text(draft.rows.len(), "Rows of the draft:");
        let bytes = draft.encode().expect("a draft");
        let mut area = [0; LONGEST_FILE];
        let (true, Ok(converted)) = (draft.is_draft(), convert(&bytes, &mut area)) else { continue };
        let text = fit(converted, SIZES);
        let Ok(Answer::Can { assembly, .. }) = Answer::read(text.as_bytes()) else { continue };
        let page = shown(answer(&bytes, text.as_bytes()));
        let truths = truths(&draft, &Table::read(converted).expect("a rule file"), &assembly);
        for (part, truths) in told(&page).iter().zip(&truths) {
            assert!(part.holds.iter().all(|&row| truths[usize::from(row)]), "{page}");
            assert!(part.not.iter().all(|&row| !truths[usize::from(row)]), "{page}");
            rows += part.holds.len() + part.not.len();
        }
        can += 1;
    }
    assert!(can > 500 && rows > 2 * can, "{can} {rows}");
}

/// Names and roles without words: composed ones, and any bytes as a text.
#[test]
fn any_text_does() {
    let mut prng = Prng::new(73);
    for _ in 0..1_000 {
        let shape = Shape { text: 200, ..SHAPE };
        let files = [random_file(&mut prng, shape), random_draft(&mut prng, shape)];
        for bytes in files {
            let page = shown(file(&bytes));
            assert!(page.lines().count() > 7 && page.contains("\nWanted:\n"), "{page}");
            assert!(!page.contains(|c: char| c.is_control() && c != '\n'), "{page:?}");
            let mut area = [0; LONGEST_FILE];
            let converted = convert(&bytes, &mut area).map_or_else(|_| bytes.clone(), <[u8]>::to_vec);
            let text = fit(&converted, SIZES);
            assert!(!matches!(answer(&bytes, text.as_bytes()), Ending::Failed(_)), "{text}");
        }
        let mut damaged = random_file(&mut prng, shape);
        damage(&mut prng, &mut damaged);
        for bytes in [damaged, random_bytes(&mut prng)] {
            let number = Table::read(&bytes).err().map(|fault| fault.number());
            let text = fit(&bytes, SIZES);
            assert_eq!(number.is_some_and(|number| text == format!("REFUSED {number}\n")), number.is_some(), "{text}");
            assert!(!matches!(answer(&bytes, text.as_bytes()), Ending::Failed(_)), "{bytes:?} {text}");
            drop(file(&bytes));
        }
    }
}

/// An answer with changed bytes is told as another answer that belongs to the file, or not at all.
#[test]
fn damaged_answers_are_no_trouble() {
    let mut prng = Prng::new(74);
    let (mut shown, mut failed) = (0, 0);
    for _ in 0..3_000 {
        let bytes = random_file(&mut prng, SHAPE);
        let mut text = fit(&bytes, SIZES).into_bytes();
        for _ in 0..1 + prng.below(3) {
            let at = prng.below(text.len().max(1));
            if at >= text.len() {
                break;
            }
            match prng.below(6) {
                0 => drop(text.remove(at)),
                1 => text.insert(at, b"0123456789ABCDEL \n"[prng.below(18)]),
                2 => text.truncate(at.max(1)),
                3 => text[at] = prng.byte_below(256),
                _ => text[at] = b"0123456789abcdefEL \n"[prng.below(20)],
            }
        }
        match answer(&bytes, &text) {
            Ending::Failed(_) => failed += 1,
            _ => shown += 1,
        }
    }
    assert!(shown > 20 && failed > 1_000, "{shown} {failed}");
}

/// The answer of a call and what is read of its lines are one.
#[test]
fn an_answer_is_read_as_it_was_given() {
    let mut prng = Prng::new(75);
    for _ in 0..500 {
        let bytes = random_file(&mut prng, SHAPE);
        let mut space = gumbyra::Space::with(SIZES);
        let given = Answer::of_call(space.fit(&bytes));
        assert_eq!(Answer::read(fit(&bytes, SIZES).as_bytes()), Ok(given));
    }
    let link = Link { from: 0, role: 31, to: 0 };
    let read = Answer::read(b"CAN 1 1\nUSED 1 2 3\nE 0 ffffffffffffffff\nL 0 31 0");
    let Ok(Answer::Can { assembly, .. }) = read else { panic!("{read:?}") };
    assert_eq!(assembly, Assembly { elements: vec![(0..64).collect()], links: vec![link] });
}
