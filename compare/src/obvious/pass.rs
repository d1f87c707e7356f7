//! A pass.

use super::check::read;
use super::times::{covered, covers, greatest, put, vector, Summary, Vector, Words};
use super::times::{FLOOR, FOLDER, LIVE, NEVER, REMOVED};

const WALKED: u32 = 4;
const PASSED_OVER: u32 = 5;

/// A pass: the rows looked at, or the refusal's number.
pub fn pass<const C: usize, const W: usize>(
    source: &[u32],
    target: &mut [u32],
    row: u32,
    answers: &mut [u32],
) -> Result<u32, u32> {
    let (source_clock, a) = read::<C, W>(source)?;
    let (target_clock, b) = read::<C, W>(target).map_err(|number| number + 10)?;
    if a.len() != b.len()
        || a.iter()
            .zip(b)
            .any(|(a, b)| a[1] != b[1] || (a[0] == FOLDER) != (b[0] == FOLDER))
    {
        return Err(4);
    }
    if source_clock.device == target_clock.device {
        return Err(5);
    }
    if a.iter()
        .any(|a| a[FLOOR + target_clock.device] > target_clock.counter)
    {
        return Err(6);
    }
    if b.iter()
        .any(|b| b[FLOOR + source_clock.device] > source_clock.counter)
    {
        return Err(7);
    }
    let row = row as usize;
    if row >= b.len() {
        return Err(8);
    }
    if answers.len() != b[row][1] as usize {
        return Err(9);
    }
    let (b, _) = target[W..].as_chunks_mut::<W>();
    let mut walk = Walk::<C, W> {
        others: target_clock.others(),
        looked_at: 0,
    };
    let above = [source_clock.above(), target_clock.above()];
    walk.descend(a, b, row, above, answers);
    Ok(walk.looked_at)
}

/// A pass on its way.
struct Walk<const C: usize, const W: usize> {
    /// All ones in the columns of the target's floors that can be raised.
    others: Vector<C>,
    looked_at: u32,
}

impl<const C: usize, const W: usize> Walk<C, W> {
    /// From a row down to that where the pass starts, the floors above being given.
    fn descend(
        &mut self,
        a: &[Words<W>],
        b: &mut [Words<W>],
        row: usize,
        above: [Vector<C>; 2],
        answers: &mut [u32],
    ) {
        if row == 0 {
            if b[0][0] == FOLDER {
                self.folder(a, b, above, answers);
            } else {
                answers[0] = self.sheet(&a[0], &mut b[0], above);
            }
            return;
        }
        let mut child = 1;
        while row >= child + b[child][1] as usize {
            child += b[child][1] as usize;
        }
        let end = child + b[child][1] as usize;
        let above = self.down(&a[0], &b[0], above);
        let (a, beneath) = (&a[child..end], &mut b[child..end]);
        self.descend(a, beneath, row - child, above, answers);
        mend::<C, W>(b);
    }

    /// What is known beneath these two rows, or at them.
    #[inline(always)]
    fn down(&self, a: &Words<W>, b: &Words<W>, above: [Vector<C>; 2]) -> [Vector<C>; 2] {
        [
            greatest(above[0], vector(a, FLOOR)),
            greatest(above[1], vector(b, FLOOR)),
        ]
    }

    /// Raises the target's floor at a row; gives the floor.
    #[inline(always)]
    fn raise(&self, b: &mut Words<W>, time: Vector<C>) -> Vector<C> {
        let raised = greatest(vector(b, FLOOR), time);
        let floor = std::array::from_fn(|column| raised[column] & self.others[column]);
        put(b, FLOOR, floor);
        floor
    }

    /// A folder with all beneath it: passed over, or walked.
    fn folder(
        &mut self,
        a: &[Words<W>],
        b: &mut [Words<W>],
        above: [Vector<C>; 2],
        answers: &mut [u32],
    ) {
        self.looked_at += 1;
        let above = self.down(&a[0], &b[0], above);
        let of_a = Summary::<C>::of(&a[0]);
        let of_b = Summary::<C>::of(&b[0]);
        let least = greatest(above[0], of_a.least);
        let is_level = least == greatest(above[0], of_a.most);
        if is_level && covered(of_a.newest, greatest(above[1], of_b.least)) {
            for (answer, row) in answers.iter_mut().zip(b.iter()) {
                *answer = if row[0] == FOLDER { PASSED_OVER } else { 0 };
            }
            let floor = self.raise(&mut b[0], least);
            let raised = Summary {
                least: greatest(floor, of_b.least),
                most: greatest(floor, of_b.most),
                ..of_b
            };
            raised.put_times(&mut b[0]);
            return;
        }
        answers[0] = WALKED;
        let mut summary = Summary::<C>::EMPTY;
        let mut child = 1;
        while child < b.len() {
            let end = child + b[child][1] as usize;
            if b[child][0] == FOLDER {
                let (a, b) = (&a[child..end], &mut b[child..end]);
                self.folder(a, b, above, &mut answers[child..end]);
            } else {
                answers[child] = self.sheet(&a[child], &mut b[child], above);
            }
            summary.add(&b[child]);
            child = end;
        }
        summary.with_floor(b).put(&mut b[0]);
    }

    /// One sheet: gives its answer.
    #[inline(always)]
    fn sheet(&mut self, a: &Words<W>, b: &mut Words<W>, above: [Vector<C>; 2]) -> u32 {
        self.looked_at += 1;
        let [known_a, known_b] = self.down(a, b, above);
        let (answer, taken) = match (a[0], b[0]) {
            (NEVER, _) => (0, false),
            _ if covers(&known_b, a, 2) => (0, false),
            (LIVE, NEVER) => (1, true),
            (REMOVED, NEVER) => (0, true),
            (REMOVED, REMOVED) => (0, covers(&known_a, b, 2)),
            (LIVE, LIVE) if covers(&known_a, b, 2) => (1, true),
            (LIVE, REMOVED) if covers(&known_a, b, 2) || !covers(&known_b, a, 4) => (1, true),
            (REMOVED, LIVE) if !covers(&known_a, b, 4) => (0, false),
            (REMOVED, LIVE) if covers(&known_a, b, 2) => (2, true),
            _ => return 3,
        };
        if taken {
            b[0] = a[0];
            b[2..8].copy_from_slice(&a[2..8]);
        }
        self.raise(b, known_a);
        answer
    }
}

/// Works out the summary of a folder, those beneath it being right.
fn mend<const C: usize, const W: usize>(rows: &mut [Words<W>]) {
    let mut summary = Summary::<C>::EMPTY;
    let mut next = 1;
    while next < rows.len() {
        let child = &rows[next];
        summary.add(child);
        next += child[1] as usize;
    }
    summary.with_floor(rows).put(&mut rows[0]);
}
