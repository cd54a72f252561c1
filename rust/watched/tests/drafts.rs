//! The converter against the plain one: the answer and every byte of the area, on valid and damaged drafts and random bytes in areas
//! of random lengths.

use compare::files::inclusions::with_inclusions;
use compare::{damage, draft_cases, random_area, random_bytes, random_draft, DraftCounts, Prng, Shape};
use watched::Converter;

/// The area must be as the plain converter's answer says.
fn check(converter: &mut Converter, draft: &[u8], area: usize, counts: &mut DraftCounts) {
    let expected = plain::convert(draft, area);
    let conversion =
        converter.run(draft, area).unwrap_or_else(|broken| panic!("{broken}: {draft:02x?} in {area} bytes"));
    assert_eq!(conversion, expected, "{draft:02x?} in {area} bytes");
    assert_eq!(converter.broken(&expected), None, "{draft:02x?} in {area} bytes");
    counts.count(draft, area, &expected);
}

#[test]
fn valid_drafts() {
    let shapes = [
        Shape { names: 1, roles: 1, compound: 6, rules: 2, text: 4 },
        Shape { names: 3, roles: 2, compound: 20, rules: 6, text: 300 },
        Shape { names: 4, roles: 16, compound: 30, rules: 8, text: 3000 },
        Shape { names: 30, roles: 16, compound: 30, rules: 64, text: 40 },
        Shape { names: 5, roles: 3, compound: 120, rules: 64, text: 40 },
    ];
    let mut prng = Prng::new(51);
    let (mut converter, mut counts) = (Converter::new(), DraftCounts::default());
    for round in 0..50_000 {
        let draft = random_draft(&mut prng, shapes[round % shapes.len()]);
        let area = random_area(&mut prng, &draft);
        check(&mut converter, &draft, area, &mut counts);
    }
    println!("valid drafts: {counts:?}");
    counts.assert_often();
}

#[test]
fn damaged_drafts() {
    let shape = Shape { names: 2, roles: 2, compound: 12, rules: 4, text: 8 };
    let vectors: Vec<Vec<u8>> = draft_cases().into_iter().map(|case| case.draft).collect();
    let mut prng = Prng::new(52);
    let (mut converter, mut counts) = (Converter::new(), DraftCounts::default());
    for round in 0..40_000 {
        let mut draft = match round % 4 {
            0 => vectors[prng.below(vectors.len())].clone(),
            1 => {
                let draft = random_draft(&mut prng, shape);
                with_inclusions(&mut prng, &draft, shape.roles)
            }
            _ => random_draft(&mut prng, shape),
        };
        damage(&mut prng, &mut draft);
        let area = random_area(&mut prng, &draft);
        check(&mut converter, &draft, area, &mut counts);
    }
    println!("damaged drafts: {counts:?}");
    counts.assert_each_refusal(50);
}

#[test]
fn bytes_at_random() {
    let mut prng = Prng::new(53);
    let (mut converter, mut counts) = (Converter::new(), DraftCounts::default());
    for _ in 0..40_000 {
        let draft = random_bytes(&mut prng);
        let area = random_area(&mut prng, &draft);
        check(&mut converter, &draft, area, &mut counts);
    }
    println!("random bytes: {counts:?}");
    counts.assert_each_refusal(40);
}
