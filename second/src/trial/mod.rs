//! What a trial of the calls needs: random numbers, plans, and a look at the words of a table. The calls use none of
//! it.

pub mod look;
pub mod plans;
pub mod random;

pub use random::Random;

/// Two different tables of several, mostly of one width: their numbers.
pub fn two_of(random: &mut Random, tables: &[Vec<u32>]) -> (usize, usize) {
    let one = random.within(0..tables.len());
    let is_like = |other: &usize| look::width(&tables[one]) == look::width(&tables[*other]);
    let others = (0..tables.len()).filter(|&other| other != one);
    let (like, unlike): (Vec<_>, Vec<_>) = others.partition(is_like);
    let is_mixed = like.is_empty() || !unlike.is_empty() && random.once_in(8);
    let other = random.one_of(if is_mixed { &unlike } else { &like });
    (one, other)
}
