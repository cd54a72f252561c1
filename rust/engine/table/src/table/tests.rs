use super::*;
use crate::Place;

/// Rows: is a pump; is a hose; screwed is fitted; some along 0: hose; either pump or row 3. Rules: 4, 0. Wanted: 3.
fn pumps() -> Table {
    let mut table = Table { text: b"Pumps\n".to_vec(), ..Table::default() };
    let (pump, hose) = (table.name(0), table.name(1));
    table.within(2, 0);
    let some = table.some(0, hose);
    let either = table.either(pump, some);
    table.rule(either);
    table.rule(pump);
    table.wanted = some;
    table
}

/// What is wrong with the table, by its number and place.
fn fault(table: &Table) -> (u8, Place) {
    let fault = table.encode().expect_err("a fault");
    (fault.number(), fault.place())
}

#[test]
fn bytes_are_text_rows_rules_trailer() {
    let rows = [[1, 0, 0, 0], [1, 0, 1, 0], [7, 2, 0, 0], [6, 0, 1, 0], [4, 0, 0, 3]];
    let file = [b"Pumps\n", rows.as_flattened(), &[4, 0], &[6, 0, 5, 2, 3], b"FIT"].concat();
    assert_eq!(pumps().encode().as_ref(), Ok(&file));
    assert_eq!(Table::read(&file), Ok(pumps()));
    assert_eq!(Table::read_draft(&file), Ok(pumps()));
}

#[test]
fn the_file_as_a_whole() {
    let file = pumps().encode().expect("a file");
    let refused =
        |file: &[u8]| Table::read(file).map_err(|fault| (fault.number(), fault.place())).expect_err("a fault");
    assert_eq!(refused(&file[..7]), (1, Place::File));
    assert_eq!(refused(&[file.as_slice(), &[0]].concat()), (2, Place::File));
    assert_eq!(refused(&[&file[..file.len() - 6], &[0, 2, 3], b"FIT"].concat()), (3, Place::File));
    assert_eq!(refused(&[&file[..file.len() - 6], &[5, 65, 3], b"FIT"].concat()), (3, Place::File));
    assert_eq!(refused(&file[1..]), (4, Place::File));
    assert_eq!(fault(&Table { text: vec![0; 4067], ..pumps() }), (1, Place::File));
    assert!(Table { text: vec![0; 4066], ..pumps() }.encode().is_ok());
    assert_eq!(fault(&Table::default()), (3, Place::File));
    assert_eq!(fault(&Table { rows: (0..65).map(Row::Name).collect(), ..Table::default() }), (3, Place::File));
    assert_eq!(fault(&Table { rules: vec![0; 65], ..pumps() }), (3, Place::File));
}

#[test]
fn the_place_of_a_row_or_a_rule() {
    let with = |row: Row| {
        let mut table = pumps();
        table.rows.extend([row, Row::NotName(0)]);
        table
    };
    assert_eq!(fault(&with(Row::Name(64))), (5, Place::Row(5)));
    assert_eq!(fault(&with(Row::Both(0, 5))), (6, Place::Row(5)));
    assert_eq!(fault(&with(Row::Some { role: 0, row: 1 })), (7, Place::Rows(3, 5)));
    assert_eq!(fault(&with(Row::Both(0, 2))), (16, Place::Row(5)));
    assert_eq!(fault(&Table { rules: vec![1, 5, 6], ..pumps() }), (8, Place::Rule(1)));
    assert_eq!(fault(&Table { rules: vec![1, 2, 2], ..pumps() }), (16, Place::Rule(1)));
    assert_eq!(fault(&Table { wanted: 5, ..pumps() }), (8, Place::Wanted));
    assert_eq!(fault(&Table { wanted: 2, ..pumps() }), (16, Place::Wanted));
}

#[test]
fn the_checks_have_an_order() {
    // Each has the faults of all before, and of these the first is told.
    let mut table = Table { wanted: 2, ..pumps() };
    let mut told = vec![fault(&table)];
    table.rules = vec![2];
    told.push(fault(&table));
    table.rows.push(Row::Not(2));
    told.push(fault(&table));
    table.rules = vec![2, 99];
    told.push(fault(&table));
    table.rows.push(Row::Name(1));
    told.push(fault(&table));
    table.rows.push(Row::Not(9));
    told.push(fault(&table));
    table.rows.push(Row::All { role: 32, row: 0 });
    told.push(fault(&table));
    table.rows.resize(65, Row::Name(1));
    told.push(fault(&table));
    let places =
        [Place::Wanted, Place::Rule(0), Place::Row(5), Place::Rule(1), Place::Rows(1, 6), Place::Row(7), Place::Row(8)];
    let expected = [16, 16, 16, 8, 7, 6, 5].into_iter().zip(places).chain([(3, Place::File)]);
    assert_eq!(told, expected.collect::<Vec<_>>());
}

#[test]
fn a_draft_is_no_rule_file() {
    let mut draft = pumps();
    draft.wanted = draft.not(0);
    assert!(draft.is_draft() && !pumps().is_draft());
    let bytes = draft.encode().expect("a draft");
    assert_eq!(Table::read_draft(&bytes), Ok(draft));
    let fault = Table::read(&bytes).expect_err("kind 8");
    assert_eq!((fault.number(), fault.place()), (5, Place::Row(5)));
    assert!(fault.to_string().starts_with("row 5 is of kind 8: that is for drafts"));
}

#[test]
fn equal_rows_are_shared() {
    let mut table = pumps();
    assert_eq!([table.name(1), table.some(0, 1), table.either(3, 0), table.either(0, 3)], [1, 3, 5, 4]);
    assert_eq!(table.rows.len(), 6);
    for name in 0..=255 {
        table.not_name(name);
    }
    assert_eq!((table.not_name(255), table.not_name(0), table.rows.len()), (255, 6, 262));
    assert_eq!((table.find(Row::NotName(249)), table.find(Row::NotName(250))), (Some(255), None));
}

#[test]
fn rows_are_found_by_what_they_say_and_by_their_words() {
    let mut table = pumps();
    table.text = b"Rows:\n0 is a pump\n1 is a hose\n9 is a box\nRows of the draft:\n3 is a hose".to_vec();
    assert_eq!((table.row_of_name(1), table.row_of_not_name(1)), (Some(1), None));
    assert_eq!((table.find(Row::Within { role: 2, wider: 0 }), table.find(Row::Name(2))), (Some(2), None));
    assert_eq!([4, 0, 1].map(|row| table.is_rule(row)), [true, true, false]);
    assert_eq!(
        ["is a pump", "is a hose", "is a box", "is"].map(|words| table.row_called(words)),
        [Some(0), Some(1), None, None]
    );
    let not = table.not_name(0);
    table.not(not);
    assert_eq!(["is a pump", "is a hose"].map(|words| table.row_called(words)), [Some(0), Some(1)]);
    table.text = b"Rows of the draft:\n3 is a hose\nRows:\n3 is a box\n1 is a hose".to_vec();
    assert_eq!(["is a hose", "is a box"].map(|words| table.row_called(words)), [Some(1), None]);
}

#[test]
fn a_list_takes_the_place_of_the_wanted_row() {
    let mut file = pumps().encode().expect("a file");
    let own = file.len() - 4;
    file[own] = 99;
    let refused = |wanted: &[u8]| Table::read_wanted(&file, wanted).map_err(|fault| (fault.number(), fault.place()));
    assert_eq!(refused(&[]), Ok(Table { wanted: 99, ..pumps() }));
    assert_eq!(refused(&[0, 1, 0]), Ok(Table { wanted: 99, ..pumps() }));
    assert_eq!(refused(&[0, 2]), Err((16, Place::Wanted)));
    assert_eq!(refused(&[2, 5]), Err((8, Place::Wanted)));
}
