//! A device's table.

use crate::layout::{head, Columns};
use crate::plan::Plan;
use crate::row::{Content, Row, Rows};
use crate::{number, raw, succeed, Refusal};

/// A device's table of times for a tree of duty sheets. It is always sound.
///
/// ```
/// use kettleflock::{Columns, Content, Kind, Plan, Table};
///
/// let mut table = Table::new(Columns::Eight, 0, &Plan::folder([Plan::sheet()]))?;
/// let corrected = Content { mark: 701, class: 3 };
/// assert_eq!(table.create(1, Content { mark: 700, class: 3 })?, 1);
/// assert_eq!(table.change(1, corrected)?, 2);
/// let sheet = table.row(1).expect("a row");
/// assert!(matches!(sheet.kind(), Kind::Live { content, .. } if content == corrected));
/// # Ok::<(), kettleflock::Refusal>(())
/// ```
#[derive(Clone, Debug, PartialEq, Eq)]
pub struct Table {
    words: Vec<u32>,
}

impl Table {
    /// A new table of a device, which is below the number of columns: no event has happened.
    ///
    /// ```
    /// use kettleflock::{Columns, Plan, Refusal, Table};
    ///
    /// let plan = Plan::folder([Plan::sheet()]);
    /// assert_eq!(Table::new(Columns::Sixteen, 15, &plan)?.counter(), 0);
    /// assert_eq!(Table::new(Columns::Eight, 15, &plan), Err(Refusal::NoSuchDevice));
    /// # Ok::<(), Refusal>(())
    /// ```
    ///
    /// # Errors
    ///
    /// The device is none of so many columns ([`Refusal::NoSuchDevice`]); the plan is a sheet alone, or has more than 256 rows or
    /// 16 levels ([`Refusal::Order`]).
    pub fn new(columns: Columns, device: u32, plan: &Plan) -> Result<Table, Refusal> {
        let plan = plan.numbers();
        let mut words = vec![0; columns.length(plan.len())];
        succeed(raw::new(columns as u32, device, &plan, &mut words))?;
        Ok(Table { words })
    }

    /// The table in these words, if it is sound.
    ///
    /// ```
    /// use kettleflock::{Columns, Plan, Refusal, Table};
    ///
    /// let table = Table::new(Columns::Eight, 3, &Plan::folder([]))?;
    /// let words = table.clone().into_words();
    /// assert_eq!(Table::from_words(words)?, table);
    /// assert_eq!(Table::from_words(vec![]), Err(Refusal::Head));
    /// # Ok::<(), Refusal>(())
    /// ```
    ///
    /// # Errors
    ///
    /// The words are no sound table: [`Refusal::Head`], [`Refusal::Order`], [`Refusal::Rule`].
    pub fn from_words(words: Vec<u32>) -> Result<Table, Refusal> {
        succeed(raw::check(&words))?;
        Ok(Table { words })
    }

    /// This table with sixteen columns: the same events and times, zeros in the new columns. The device goes on from
    /// it; only tables of one width can be passed to each other.
    ///
    /// ```
    /// use kettleflock::{pass, Columns, Content, Plan, Refusal, Table};
    ///
    /// let plan = Plan::folder([Plan::sheet()]);
    /// let mut desk = Table::new(Columns::Eight, 0, &plan)?;
    /// let mut ninth = Table::new(Columns::Sixteen, 8, &plan)?;
    /// desk.create(1, Content { mark: 700, class: 0 })?;
    /// assert_eq!(pass(&desk, &mut ninth, 0), Err(Refusal::Width));
    ///
    /// let desk = desk.widen()?;
    /// assert_eq!(desk.columns(), Columns::Sixteen);
    /// assert!(pass(&desk, &mut ninth, 0).is_ok());
    /// assert_eq!(desk.widen(), Err(Refusal::Width));
    /// # Ok::<(), Refusal>(())
    /// ```
    ///
    /// # Errors
    ///
    /// The table has sixteen columns already ([`Refusal::Width`]).
    pub fn widen(&self) -> Result<Table, Refusal> {
        let mut words = vec![0; Columns::Sixteen.length(self.rows().len())];
        succeed(raw::widen(&self.words, &mut words))?;
        Ok(Table { words })
    }

    /// The table's words, to be kept or sent.
    #[must_use]
    pub fn words(&self) -> &[u32] {
        &self.words
    }

    /// The table's words, to be kept or sent.
    #[must_use]
    pub fn into_words(self) -> Vec<u32> {
        self.words
    }

    /// For calls that leave a sound table.
    pub(crate) fn words_mut(&mut self) -> &mut [u32] {
        &mut self.words
    }

    /// How many columns its vectors have.
    #[must_use]
    pub fn columns(&self) -> Columns {
        Columns::of(&self.words)
    }

    /// The device, below the number of columns.
    #[must_use]
    pub fn device(&self) -> u32 {
        self.words[head::DEVICE]
    }

    /// How many events have happened on the device.
    #[must_use]
    pub fn counter(&self) -> u32 {
        self.words[head::COUNTER]
    }

    /// A row, from 0, the root.
    #[must_use]
    pub fn row(&self, row: usize) -> Option<Row<'_>> {
        self.rows().nth(row)
    }

    /// All rows, depth first.
    #[must_use]
    pub fn rows(&self) -> Rows<'_> {
        let columns = self.columns();
        Rows::new(columns, 0, &self.words[columns.row(0)..])
    }

    /// All rows beneath a folder.
    ///
    /// ```
    /// use kettleflock::{Columns, Plan, Refusal, Table};
    ///
    /// let week = Plan::folder([Plan::sheet(), Plan::sheet()]);
    /// let table = Table::new(Columns::Eight, 0, &Plan::folder([week, Plan::sheet()]))?;
    /// let rows: Vec<usize> = table.beneath(1)?.map(|row| row.number()).collect();
    /// assert_eq!(rows, [2, 3]);
    /// assert_eq!(table.beneath(2).unwrap_err(), Refusal::NoSuchRow);
    /// # Ok::<(), Refusal>(())
    /// ```
    ///
    /// # Errors
    ///
    /// There is no such row, or it is a sheet ([`Refusal::NoSuchRow`]).
    pub fn beneath(&self, folder: usize) -> Result<Rows<'_>, Refusal> {
        let length = succeed(raw::beneath(&self.words, number(folder)))? as usize;
        let (columns, first) = (self.columns(), folder + 1);
        let words = &self.words[columns.row(first)..][..length];
        Ok(Rows::new(columns, first, words))
    }

    /// Creates a sheet that isn't there. Gives the count of the event.
    ///
    /// # Errors
    ///
    /// There is no such class ([`Refusal::NoSuchClass`]) or no mark ([`Refusal::NoMark`]); there is no such row
    /// ([`Refusal::NoSuchRow`]); the sheet is there already or is a folder ([`Refusal::Unfit`]); the device has no next count
    /// ([`Refusal::CounterFull`]).
    pub fn create(&mut self, row: usize, content: Content) -> Result<u32, Refusal> {
        self.event(row, Event::Create(content))
    }

    /// Changes a sheet that is there. Gives the count of the event.
    ///
    /// # Errors
    ///
    /// There is no such class ([`Refusal::NoSuchClass`]) or no mark ([`Refusal::NoMark`]); there is no such row
    /// ([`Refusal::NoSuchRow`]); the sheet isn't there or is a folder ([`Refusal::Unfit`]); the device has no next count
    /// ([`Refusal::CounterFull`]).
    pub fn change(&mut self, row: usize, content: Content) -> Result<u32, Refusal> {
        self.event(row, Event::Change(content))
    }

    /// Removes a sheet that is there. Gives the count of the event.
    ///
    /// # Errors
    ///
    /// There is no such row ([`Refusal::NoSuchRow`]); it isn't there or is a folder ([`Refusal::Unfit`]); the device has no next count
    /// ([`Refusal::CounterFull`]).
    pub fn remove(&mut self, row: usize) -> Result<u32, Refusal> {
        self.event(row, Event::Remove)
    }

    fn event(&mut self, row: usize, event: Event) -> Result<u32, Refusal> {
        let (event, Content { mark, class }) = event.numbers();
        succeed(raw::event(&mut self.words, number(row), event, mark, class))
    }
}

/// What is done to a sheet.
#[derive(Clone, Copy)]
enum Event {
    Create(Content),
    Change(Content),
    Remove,
}

impl Event {
    /// The library's number for it, and the content that goes with it.
    fn numbers(self) -> (u32, Content) {
        match self {
            Event::Create(content) => (1, content),
            Event::Change(content) => (2, content),
            Event::Remove => (3, Content::IGNORED),
        }
    }
}
