//! What a user of the crate sees of tables of eight and of sixteen columns.

mod common;

use common::{marked, table};
use kettleflock::{
    ahead, pass, settle, standing, Answer, Choice, Columns, Passed, Standing, Table,
};

fn passed(source: &Table, target: &mut Table) -> Passed {
    pass(source, target, 0).expect("a sound pair")
}

fn widened(table: &Table) -> Table {
    table.widen().expect("a narrow table")
}

/// Desk and tablet, in conflict at row 2.
fn in_conflict(columns: Columns) -> (Table, Table) {
    let (mut desk, mut tablet) = (table(columns, 0), table(columns, 1));
    desk.create(2, marked(700)).expect("a row never used");
    assert_eq!(passed(&desk, &mut tablet).answer(2), Some(Answer::Copy));
    desk.change(2, marked(701)).expect("a live row");
    tablet.change(2, marked(702)).expect("a live row");
    (desk, tablet)
}

#[test]
fn a_narrow_and_a_wide_table() {
    for (columns, last, width) in [(Columns::Eight, 7, 40), (Columns::Sixteen, 15, 72)] {
        let table = table(columns, last);
        assert_eq!(table.columns(), columns);
        assert_eq!(table.device(), last);
        assert_eq!(table.words().len(), width * 6);
        assert!(table.rows().all(|row| row.words().len() == width));
        assert!(table.rows().all(|row| row.floor().len() == columns.count()));
        let beneath: Vec<usize> = table
            .beneath(1)
            .expect("a folder")
            .map(|row| row.number())
            .collect();
        assert_eq!(beneath, [2, 3]);
    }
}

#[test]
fn a_row_by_its_number() {
    let table = table(Columns::Sixteen, 0);
    let mut rows = table.rows();
    assert_eq!(rows.nth(1), table.row(1));
    assert_eq!(rows.next(), table.row(2));
    assert_eq!(rows.len(), 2);
    assert_eq!(table.row(4).map(|row| row.number()), Some(4));
    assert_eq!(table.row(5), None);
    assert_eq!(table.row(usize::MAX), None);
}

#[test]
fn widening_keeps_events_and_times() {
    let (_, narrow) = in_conflict(Columns::Eight);
    let wide = widened(&narrow);
    assert_eq!(wide.columns(), Columns::Sixteen);
    assert_eq!(
        (wide.device(), wide.counter()),
        (narrow.device(), narrow.counter())
    );
    assert_eq!(wide.rows().len(), narrow.rows().len());
    for (wide, narrow) in wide.rows().zip(narrow.rows()) {
        assert_eq!((wide.kind(), wide.size()), (narrow.kind(), narrow.size()));
        let (known, new) = wide.floor().split_at(8);
        assert_eq!((known, new), (narrow.floor(), &[0; 8][..]));
    }
}

#[test]
fn a_run_goes_on_from_wide_tables_as_from_narrow_ones() {
    let (desk, mut tablet) = in_conflict(Columns::Eight);
    let (wide_desk, mut wide_tablet) = (widened(&desk), widened(&tablet));
    assert_eq!(
        (wide_desk.clone(), wide_tablet.clone()),
        in_conflict(Columns::Sixteen)
    );

    assert_eq!(
        passed(&wide_desk, &mut wide_tablet),
        passed(&desk, &mut tablet)
    );
    assert_eq!(
        standing(&wide_desk, &wide_tablet, 2),
        Ok(Standing::Conflict)
    );
    let who = ahead(&desk, &tablet, 2).expect("a conflict");
    assert_eq!((who.source.mask(), who.target.mask()), (0b01, 0b10));
    assert_eq!(ahead(&wide_desk, &wide_tablet, 2), Ok(who));
    for (source, target) in [(&desk, &mut tablet), (&wide_desk, &mut wide_tablet)] {
        assert_eq!(settle(source, target, 2, Choice::New(marked(703))), Ok(2));
    }
    assert_eq!(widened(&tablet), wide_tablet);
}

#[test]
fn sixteen_devices() {
    let mut desk = widened(&table(Columns::Eight, 0));
    desk.create(2, marked(700)).expect("a row never used");
    let mut tablets: Vec<Table> = (1..16)
        .map(|device| table(Columns::Sixteen, device))
        .collect();
    for tablet in &mut tablets {
        assert_eq!(passed(&desk, tablet).answer(2), Some(Answer::Copy));
        assert_eq!(tablet.change(2, marked(700 + tablet.device())), Ok(1));
        assert_eq!(passed(tablet, &mut desk).answer(2), Some(Answer::Copy));
    }
    assert_eq!(desk.row(2).expect("a row").floor()[1..], [1; 15]);

    // The first has heard of none of the later ones, and works on.
    assert_eq!(tablets[0].change(2, marked(800)), Ok(2));
    let who = ahead(&desk, &tablets[0], 2).expect("a conflict");
    assert!(who.source.iter().eq(2..16) && who.target.iter().eq(1..2));
}
