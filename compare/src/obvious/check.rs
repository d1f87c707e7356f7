//! The table check.

use super::times::{covers, empty, greatest, vector, Clock, Summary, Vector, Words};
use super::times::{FLOOR, FOLDER, LIVE, NEVER};

const MOST_ROWS: usize = 256;
const MOST_LEVELS: u32 = 16;
const LAST_CLASS: u32 = 9;

/// The clock and the rows of sound words, or the refusal's number.
pub fn read<const C: usize, const W: usize>(table: &[u32]) -> Result<(Clock, &[Words<W>]), u32> {
    let (head, rows) = table.split_first_chunk::<W>().ok_or(1u32)?;
    let (rows, rest) = rows.as_chunks::<W>();
    let head_is_right = rest.is_empty()
        && (head[0] as usize) < C
        && (1..=MOST_ROWS).contains(&rows.len())
        && head[2] as usize == rows.len()
        && head[3] == if C == 16 { 16 } else { 0 }
        && empty(&head[4..]);
    if !head_is_right {
        return Err(1);
    }
    let clock = Clock {
        device: head[0] as usize,
        counter: head[1],
    };
    if rows[0][0] != FOLDER || rows[0][1] as usize != rows.len() {
        return Err(2);
    }
    let mut reader = Reader::<C> { clock, sound: true };
    reader.folder(rows, 1, clock.above())?;
    if reader.sound {
        Ok((clock, rows))
    } else {
        Err(3)
    }
}

/// Goes over the rows once: what breaks the order stops it, what breaks another rule is noted.
struct Reader<const C: usize> {
    clock: Clock,
    sound: bool,
}

impl<const C: usize> Reader<C> {
    /// A folder with all its rows, on a level, beneath these floors.
    fn folder<const W: usize>(
        &mut self,
        rows: &[Words<W>],
        level: u32,
        above: Vector<C>,
    ) -> Result<(), u32> {
        let row = &rows[0];
        let floor = vector(row, FLOOR);
        let above = greatest(above, floor);
        let mut summary = Summary::<C>::EMPTY;
        let mut next = 1;
        while next < rows.len() {
            if level == MOST_LEVELS {
                return Err(2);
            }
            let child = &rows[next];
            let size = child[1] as usize;
            if child[0] == FOLDER {
                if size == 0 || size > rows.len() - next {
                    return Err(2);
                }
                self.folder(&rows[next..next + size], level + 1, above)?;
            } else {
                if child[0] > FOLDER || size != 1 {
                    return Err(2);
                }
                self.sheet(child, above);
            }
            summary.add(child);
            next += size;
        }
        let summary = summary.with_floor(rows);
        self.sound &=
            empty(&row[2..8]) && floor[self.clock.device] == 0 && Summary::of(row) == summary;
        Ok(())
    }

    /// A sheet beneath these floors.
    #[inline(always)]
    fn sheet<const W: usize>(&mut self, row: &Words<W>, above: Vector<C>) {
        let floor = vector(row, FLOOR);
        let known = greatest(above, floor);
        let events_are_right = match row[0] {
            NEVER => empty(&row[2..8]),
            LIVE => {
                is_event::<C, W>(row, 2)
                    && is_event::<C, W>(row, 4)
                    && covers(&known, row, 2)
                    && covers(&known, row, 4)
                    && row[6] > 0
                    && row[7] <= LAST_CLASS
            }
            _ => is_event::<C, W>(row, 2) && empty(&row[4..8]) && covers(&known, row, 2),
        };
        self.sound &= events_are_right && floor[self.clock.device] == 0 && empty(&row[FLOOR + C..]);
    }
}

/// Whether two words name an event.
#[inline(always)]
fn is_event<const C: usize, const W: usize>(row: &Words<W>, word: usize) -> bool {
    (row[word] as usize) < C && row[word + 1] > 0
}
