//! What a user of the crate can be refused, and in which words.

mod common;

use common::{marked, table};
use kettleflock::layout::{head, row};
use kettleflock::{
    ahead, pass, raw, settle, standing, Answer, Choice, Columns, Content, Kind, Plan, Refusal,
    Stamp, Table,
};

const WIDTHS: [Columns; 2] = [Columns::Eight, Columns::Sixteen];

/// A root with so many sheets in it.
fn flat(sheets: usize) -> Plan {
    Plan::folder(vec![Plan::sheet(); sheets])
}

fn narrow(device: u32) -> Table {
    table(Columns::Eight, device)
}

/// The table's words, one of them changed.
fn damaged(table: &Table, word: usize, to: u32) -> Vec<u32> {
    let mut words = table.words().to_vec();
    words[word] = to;
    words
}

/// What a call on words gives that is refused.
fn refused(number: u32) -> raw::Answer {
    raw::Answer { number, count: 0 }
}

/// The same of the call for who is ahead.
fn nobody_ahead(number: u32) -> raw::Masks {
    raw::Masks {
        number,
        source: 0,
        target: 0,
    }
}

#[test]
fn numbers_and_names_go_together() {
    let numbers: Vec<u32> = Refusal::ALL.iter().map(|no| no.number()).collect();
    assert_eq!(numbers, (1..=17).chain([19, 21, 22]).collect::<Vec<_>>());
    for refusal in Refusal::ALL {
        assert_eq!(Refusal::from_number(refusal.number()), Some(*refusal));
    }
    assert_eq!(Refusal::from_number(0), None);
}

#[test]
fn a_number_without_a_name_is_told() {
    let refusal = Refusal::from_number(1000).expect("a refusal");
    assert_eq!(refusal, Refusal::Unknown(1000));
    assert_eq!(refusal.number(), 1000);
    assert!(refusal.to_string().ends_with("1000"));
}

#[test]
fn answers_and_numbers_go_together() {
    for (number, &answer) in (0..).zip(Answer::ALL) {
        assert_eq!(answer.number(), number);
        assert_eq!(Answer::from_number(number), answer);
    }
    for number in [6, 1000, u32::MAX] {
        assert_eq!(Answer::from_number(number), Answer::Unknown(number));
        assert_eq!(Answer::Unknown(number).number(), number);
    }
}

#[test]
fn each_has_words_of_its_own() {
    let mut words: Vec<String> = Refusal::ALL.iter().map(Refusal::to_string).collect();
    words.sort();
    words.dedup();
    assert_eq!(words.len(), Refusal::ALL.len());
    assert!(Refusal::TargetRule
        .to_string()
        .ends_with(&Refusal::Rule.to_string()));
}

#[test]
fn plans() {
    for (columns, last) in [(Columns::Eight, 7), (Columns::Sixteen, 15)] {
        let new = |device, plan: &Plan| Table::new(columns, device, plan);
        assert!(new(last, &flat(255)).is_ok());
        assert_eq!(new(last, &flat(256)), Err(Refusal::Order));
        assert_eq!(new(last, &Plan::sheet()), Err(Refusal::Order));
        assert_eq!(new(last + 1, &Plan::sheet()), Err(Refusal::NoSuchDevice));
    }
}

#[test]
fn columns_come_first() {
    for columns in [0, 7, 9, 15, 17, u32::MAX] {
        let mut words = [5; 3];
        assert_eq!(raw::new(columns, 99, &[], &mut words), refused(19));
        assert_eq!(words, [5; 3]);
    }
}

#[test]
fn new_in_the_length_of_the_other_width() {
    for (columns, other) in [(8, Columns::Sixteen), (16, Columns::Eight)] {
        let mut words = vec![5; other.length(2)];
        assert_eq!(raw::new(columns, 0, &[2, 0], &mut words), refused(9));
        assert!(words.iter().all(|&word| word == 5));
    }
}

#[test]
fn words_that_are_no_table() {
    for columns in WIDTHS {
        let says = |word, to, refusal| {
            let words = damaged(&table(columns, 0), word, to);
            assert_eq!(Table::from_words(words), Err(refusal), "word {word}");
        };
        says(head::DEVICE, columns as u32, Refusal::Head);
        says(head::ROWS, 4, Refusal::Head);
        says(head::SIGN + 1, 1, Refusal::Head);
        says(columns.width() - 1, 1, Refusal::Head);
        says(columns.row(0) + row::KIND, 9, Refusal::Order);
        says(columns.row(0) + row::SIZE, 4, Refusal::Order);
        says(columns.row(2) + row::MARK, 9, Refusal::Rule);
        says(columns.row(2) + row::CLASS, 1, Refusal::Rule);
        says(columns.row(1) + row::CLASS, 1, Refusal::Rule);
        says(columns.row(2) + row::FLOOR, 9, Refusal::Rule);
        says(columns.row(1) + columns.newest(), 1, Refusal::Rule);
        says(columns.row(1) + columns.least(), 1, Refusal::Rule);
        says(columns.row(1) + columns.most(), 1, Refusal::Rule);
    }
}

#[test]
fn the_sign_of_the_width() {
    for (columns, own) in [(Columns::Eight, 0), (Columns::Sixteen, 16)] {
        for sign in [0, 1, 8, 15, 16, 17, u32::MAX] {
            let words = damaged(&table(columns, 0), head::SIGN, sign);
            let number = u32::from(sign != own);
            assert_eq!(raw::check(&words).number, number, "sign {sign}");
        }
    }
}

#[test]
fn stamps_go_by_the_width() {
    for columns in WIDTHS {
        let mut table = table(columns, 0);
        table.create(2, marked(1)).expect("a row never used");
        let stamp = columns.row(2) + row::STAMP;
        let words = damaged(&table, stamp, columns as u32);
        assert_eq!(Table::from_words(words), Err(Refusal::Rule));
    }
}

#[test]
fn rows_at_most_256() {
    for columns in WIDTHS {
        let most = Table::new(columns, 0, &flat(255)).expect("256 rows");
        let mut words = most.into_words();
        words.resize(columns.length(257), 0);
        words[head::ROWS] = 257;
        words[columns.row(0) + row::SIZE] = 257;
        words[columns.row(256) + row::SIZE] = 1;
        assert_eq!(Table::from_words(words), Err(Refusal::Head));
    }
}

#[test]
fn events() {
    let mut table = narrow(0);
    assert_eq!(table.create(5, marked(1)), Err(Refusal::NoSuchRow));
    assert_eq!(table.create(usize::MAX, marked(1)), Err(Refusal::NoSuchRow));
    assert_eq!(table.create(1, marked(1)), Err(Refusal::Unfit));
    assert_eq!(table.change(2, marked(1)), Err(Refusal::Unfit));
    assert_eq!(table.remove(2), Err(Refusal::Unfit));
    assert_eq!(table.counter(), 0);

    assert_eq!(table.create(2, marked(1)), Ok(1));
    assert_eq!(table.remove(2), Ok(2));
    let stamp = Stamp {
        device: 0,
        count: 2,
    };
    assert_eq!(
        table.row(2).map(|row| row.kind()),
        Some(Kind::Removed { stamp })
    );
}

#[test]
fn classes_go_from_0_to_9() {
    for columns in WIDTHS {
        let (mut desk, mut tablet) = (table(columns, 0), table(columns, 1));
        let of_class = |class| Content { mark: 700, class };
        let is_live = |table: &Table, class| {
            let kind = table.row(2).expect("a row").kind();
            matches!(kind, Kind::Live { content, .. } if content == of_class(class))
        };
        assert_eq!(desk.create(2, of_class(10)), Err(Refusal::NoSuchClass));
        assert_eq!(desk.create(2, of_class(9)), Ok(1));
        assert!(pass(&desk, &mut tablet, 0).is_ok() && is_live(&tablet, 9));
        for class in 0..=Content::LAST_CLASS {
            assert!(desk.change(2, of_class(class)).is_ok());
            assert!(pass(&desk, &mut tablet, 0).is_ok() && is_live(&tablet, class));
        }
        assert_eq!(
            desk.change(2, of_class(u32::MAX)),
            Err(Refusal::NoSuchClass)
        );

        let class = columns.row(2) + row::CLASS;
        assert!(Table::from_words(damaged(&desk, class, 9)).is_ok());
        let words = damaged(&desk, class, 10);
        assert_eq!(Table::from_words(words), Err(Refusal::Rule));

        assert!(desk.change(2, of_class(3)).is_ok() && tablet.change(2, of_class(4)).is_ok());
        let before = tablet.clone();
        let new = |class| Choice::New(of_class(class));
        assert_eq!(
            settle(&desk, &mut tablet, 2, new(10)),
            Err(Refusal::NoSuchClass)
        );
        assert_eq!(tablet, before);
        let mut other = tablet.clone();
        assert!(settle(&desk, &mut other, 2, new(5)).is_ok() && is_live(&other, 5));
        assert!(settle(&desk, &mut tablet, 2, Choice::Theirs).is_ok() && is_live(&tablet, 3));
    }
}

#[test]
fn class_and_mark_come_after_the_event_and_before_the_row() {
    let mut words = narrow(0).into_words();
    let before = words.clone();
    assert_eq!(raw::event(&mut words, 9, 4, 0, 10), refused(16));
    assert_eq!(raw::event(&mut words, 9, 1, 0, 10), refused(21));
    assert_eq!(raw::event(&mut words, 9, 1, 0, 9), refused(22));
    assert_eq!(raw::event(&mut words, 9, 3, 0, 10), refused(8));
    assert_eq!(raw::event(&mut words, 2, 3, 0, 10), refused(10));
    assert_eq!(words, before);
}

#[test]
fn no_live_sheet_without_a_mark() {
    for columns in WIDTHS {
        let (mut desk, mut tablet) = (table(columns, 0), table(columns, 1));
        assert_eq!(desk.create(2, marked(0)), Err(Refusal::NoMark));
        assert_eq!(desk.create(2, marked(1)), Ok(1));
        assert_eq!(desk.change(2, marked(0)), Err(Refusal::NoMark));
        assert_eq!(tablet.create(2, marked(2)), Ok(1));
        let settled = settle(&desk, &mut tablet, 2, Choice::New(marked(0)));
        assert_eq!(settled, Err(Refusal::NoMark));
        let words = damaged(&desk, columns.row(2) + row::MARK, 0);
        assert_eq!(Table::from_words(words), Err(Refusal::Rule));
        assert!(settle(&desk, &mut tablet, 2, Choice::Theirs).is_ok());
        assert_eq!(desk.remove(2), Ok(2));
    }
}

#[test]
fn no_settling_after_the_last_count() {
    for columns in WIDTHS {
        let (mut desk, mut tablet) = (table(columns, 0), table(columns, 1));
        assert_eq!(desk.create(2, marked(1)), Ok(1));
        assert_eq!(tablet.create(2, marked(2)), Ok(1));
        let counted = |count| {
            let words = damaged(&tablet, head::COUNTER, count);
            Table::from_words(words).expect("a sound table")
        };
        for choice in [Choice::Theirs, Choice::Own, Choice::New(marked(3))] {
            let mut full = counted(u32::MAX);
            let settled = settle(&desk, &mut full, 2, choice);
            assert_eq!(settled, Err(Refusal::CounterFull));
            assert_eq!(full, counted(u32::MAX));
            let mut last = counted(u32::MAX - 1);
            assert_eq!(settle(&desk, &mut last, 2, choice), Ok(u32::MAX));
        }
    }
}

#[test]
fn two_tables() {
    let mut target = narrow(1);
    let other_tree = Table::new(Columns::Eight, 0, &Plan::folder([])).expect("a sound plan");
    let refused = |source: &Table, target: &mut Table, row| pass(source, target, row).unwrap_err();
    assert_eq!(refused(&other_tree, &mut target, 0), Refusal::PlacesDiffer);
    assert_eq!(refused(&narrow(1), &mut target, 0), Refusal::OneDevice);
    assert_eq!(refused(&narrow(0), &mut target, 5), Refusal::NoSuchRow);
    assert_eq!(standing(&narrow(0), &target, 1), Err(Refusal::Unfit));
    assert_eq!(ahead(&narrow(0), &target, 1), Err(Refusal::Unfit));
    assert_eq!(ahead(&narrow(0), &target, 2), Err(Refusal::NoConflict));
    assert_eq!(ahead(&narrow(0), &target, 5), Err(Refusal::NoSuchRow));
    assert_eq!(
        settle(&narrow(0), &mut target, 1, Choice::Own),
        Err(Refusal::Unfit)
    );
    assert_eq!(
        settle(&narrow(0), &mut target, 2, Choice::Own),
        Err(Refusal::NoConflict)
    );
    assert_eq!(target, narrow(1));
}

#[test]
fn two_widths() {
    // Another tree, one device and no such row would be refused, too.
    let wide = Table::new(Columns::Sixteen, 1, &flat(2)).expect("a sound plan");
    let narrow = narrow(1);
    for (source, target) in [(&narrow, &wide), (&wide, &narrow)] {
        let mut changed = target.clone();
        assert_eq!(pass(source, &mut changed, 9), Err(Refusal::Width));
        let settled = settle(source, &mut changed, 9, Choice::Own);
        assert_eq!(settled, Err(Refusal::Width));
        assert_eq!(&changed, target);
        assert_eq!(standing(source, target, 9), Err(Refusal::Width));
        assert_eq!(ahead(source, target, 9), Err(Refusal::Width));
        assert_eq!(raw::standing_side(source.words(), target.words(), 2), 0);
    }
}

#[test]
fn two_widths_come_after_the_target() {
    let source = narrow(0);
    let mark = Columns::Sixteen.row(0) + row::MARK;
    let mut target = damaged(&table(Columns::Sixteen, 1), mark, 9);
    let mut answers = [0; 5];
    let answer = raw::pass(source.words(), &mut target, 0, &mut answers);
    assert_eq!(answer, refused(13));
    assert_eq!(
        raw::settle(source.words(), &mut target, 2, 2, 0, 0),
        refused(13)
    );
    assert_eq!(raw::standing(source.words(), &target, 2), refused(13));
    assert_eq!(raw::ahead(source.words(), &target, 2), nobody_ahead(13));
}

#[test]
fn widening() {
    let narrow = narrow(7);
    let wide = narrow.widen().expect("a narrow table");
    assert_eq!(wide.widen(), Err(Refusal::Width));

    let widened = |table: &[u32], length| {
        let mut lent = vec![5; length];
        let answer = raw::widen(table, &mut lent);
        assert!(lent.iter().all(|&word| word == 5));
        answer
    };
    let right = Columns::Sixteen.length(5);
    for length in [0, right - 1, right + 1, narrow.words().len()] {
        assert_eq!(widened(narrow.words(), length), refused(9));
        assert_eq!(widened(wide.words(), length), refused(19));
    }
    let head_wrong = damaged(&narrow, head::DEVICE, 8);
    let order_wrong = damaged(&narrow, Columns::Eight.row(0) + row::SIZE, 0);
    let rule_wrong = damaged(&wide, Columns::Sixteen.row(0) + row::MARK, 9);
    assert_eq!(widened(&head_wrong, 0), refused(1));
    assert_eq!(widened(&order_wrong, 0), refused(2));
    assert_eq!(widened(&rule_wrong, 0), refused(3));
}

#[test]
fn device_put_back_to_an_old_table() {
    let (mut desk, mut tablet) = (narrow(0), narrow(1));
    let old = desk.clone();
    desk.create(2, marked(1)).expect("a row never used");
    assert!(pass(&desk, &mut tablet, 0).is_ok());
    assert_eq!(pass(&old, &mut tablet, 0), Err(Refusal::TargetAhead));
    assert_eq!(
        pass(&tablet, &mut old.clone(), 0),
        Err(Refusal::SourceAhead)
    );
}
