//! A buffer that the library makes, in arrays that held anything.

use gelwynnar::reg;
use second::random::Random;
use second::sizes::Sizes;

use crate::difference;
use crate::guarded::Edge;
use crate::image::{Counts, Image, Places};
use crate::memory::Memory;

/// The registers are the sizes, zeros, and the last queue as the last one asked; every place is zero.
pub fn open(
    sizes: Sizes,
    store: Vec<u8>,
    edge: Edge,
    memory: &mut Memory,
    random: &mut Random,
) -> Result<Image, String> {
    let before = Image { store, ..Image::junk(random) };
    memory.put(&before, edge);
    let number = gelwynnar::open(sizes.q, sizes.b, sizes.k, memory.arrays.lent());
    if number != 0 {
        return Err(format!("{number}, expected 0"));
    }
    let after = memory.image()?;
    let mut fresh = Places::zeros();
    fresh.regs[..3].copy_from_slice(&[sizes.q, sizes.b, sizes.k]);
    fresh.regs[reg::LAST_ASKED] = sizes.q - 1;
    let places = difference::places(&after.places, &fresh);
    difference::same(places.or_else(|| difference::counts(&after.counts, &Counts::zeros())))?;
    Ok(after)
}

/// Sizes that are refused leave every array as it was.
pub fn refuse(sizes: Sizes, edge: Edge, memory: &mut Memory, random: &mut Random) -> Result<(), String> {
    let before = Image::junk(random);
    memory.put(&before, edge);
    let number = gelwynnar::open(sizes.q, sizes.b, sizes.k, memory.arrays.lent());
    if number != 1 {
        return Err(format!("{number}, expected 1"));
    }
    let after = memory.image()?;
    let places = difference::places(&after.places, &before.places);
    difference::same(places.or_else(|| difference::counts(&after.counts, &before.counts)))
}
