//! Stamps, and vectors of one count for each device.

use std::array;

use crate::layout::Width;

/// The name of an event: the device it happened on and that device's count of it.
#[derive(Clone, Copy, Debug, Default, PartialEq, Eq)]
pub struct Stamp {
    /// The device.
    pub device: u32,
    /// Its count.
    pub count: u32,
}

impl Stamp {
    /// What stands in a row that has no stamp or no birth.
    pub const EMPTY: Stamp = Stamp {
        device: 0,
        count: 0,
    };

    /// Whether this can name an event in a table of this width: the device has a column and the count is at least 1.
    pub fn is_proper(self, width: Width) -> bool {
        width.has(self.device) && self.count >= 1
    }
}

/// One count for each device that there can be. Whatever the width, columns that a table doesn't have are zero.
#[derive(Clone, Copy, Debug, Default, PartialEq, Eq)]
pub struct Vector(pub [u32; Vector::COLUMNS]);

impl Vector {
    /// As many columns as any table has.
    pub const COLUMNS: usize = Width::Wide.columns();

    /// The vector of no counts at all.
    pub const ZERO: Vector = Vector([0; Vector::COLUMNS]);

    /// The vector with these counts first, and zeros.
    pub fn of(first: &[u32]) -> Vector {
        let mut vector = Vector::ZERO;
        vector.0[..first.len()].copy_from_slice(first);
        vector
    }

    /// The count in the column of a device; 0 for a device that has no column.
    pub fn count(&self, device: u32) -> u32 {
        self.0.get(device as usize).copied().unwrap_or(0)
    }

    /// The same vector with another count in the column of one device.
    pub fn with(mut self, device: u32, count: u32) -> Vector {
        if let Some(column) = self.0.get_mut(device as usize) {
            *column = count;
        }
        self
    }

    /// Column by column, the greater count.
    pub fn greatest(self, other: Vector) -> Vector {
        Vector(array::from_fn(|column| self.0[column].max(other.0[column])))
    }

    /// Column by column, the smaller count.
    pub fn smallest(self, other: Vector) -> Vector {
        Vector(array::from_fn(|column| self.0[column].min(other.0[column])))
    }

    /// The vector with this stamp's count in its device's column, and zeros.
    pub fn of_stamp(stamp: Stamp) -> Vector {
        Vector::ZERO.with(stamp.device, stamp.count)
    }

    /// Whether a stamp or birth is covered: its device's column is at least its count.
    pub fn covers(&self, stamp: Stamp) -> bool {
        self.count(stamp.device) >= stamp.count
    }

    /// A mask of the devices whose count is greater here than in another vector: bit d stands for device d.
    pub fn ahead_of(&self, other: &Vector) -> u32 {
        let ahead = |device: &u32| self.count(*device) > other.count(*device);
        let devices = 0..Vector::COLUMNS as u32;
        devices.filter(ahead).map(|device| 1 << device).sum()
    }

    /// Whether another vector is covered: it is nowhere ahead.
    pub fn covers_all(&self, other: &Vector) -> bool {
        other.ahead_of(self) == 0
    }
}
