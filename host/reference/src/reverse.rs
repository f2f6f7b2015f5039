//! The reversal of numbers, many at a time.

/// A number's bytes in the other order.
trait Reversed {
    fn reversed(self) -> Self;
}

macro_rules! reversed_as {
    ($($number:ty),*) => {$(
        impl Reversed for [u8; size_of::<$number>()] {
            #[inline(always)]
            fn reversed(self) -> Self {
                <$number>::from_ne_bytes(self).swap_bytes().to_ne_bytes()
            }
        }
    )*};
}

reversed_as!(u16, u32, u64, u128);

/// Writes the numbers of one unit that fill `data`, each reversed.
#[inline(always)]
pub(crate) fn numbers(unit: u8, data: &[u8], out: &mut [u8]) {
    if data.len() == usize::from(unit) {
        return number(data, out);
    }
    match unit {
        2 => side_by_side::<2>(data, out),
        4 => side_by_side::<4>(data, out),
        8 => side_by_side::<8>(data, out),
        _ => side_by_side::<16>(data, out),
    }
}

/// Writes the one number that fills `data` reversed.
#[inline(always)]
fn number(data: &[u8], out: &mut [u8]) {
    match data.len() {
        2 => one_by_one::<2>(&data[..2], &mut out[..2]),
        4 => one_by_one::<4>(&data[..4], &mut out[..4]),
        8 => one_by_one::<8>(&data[..8], &mut out[..8]),
        _ => one_by_one::<16>(&data[..16], &mut out[..16]),
    }
}

#[inline(always)]
fn one_by_one<const UNIT: usize>(data: &[u8], out: &mut [u8])
where
    [u8; UNIT]: Reversed,
{
    let (data, _) = data.as_chunks::<UNIT>();
    let (out, _) = out.as_chunks_mut::<UNIT>();
    for (number, written) in data.iter().zip(out) {
        *written = number.reversed();
    }
}

/// Reverses 64 bytes of numbers together: the two bytes of each half, then the
/// order of the halves in each number. That is quick with plain vector
/// instructions too. What is left, and numbers longer than a register, come one
/// by one.
#[inline(never)]
fn side_by_side<const UNIT: usize>(data: &[u8], out: &mut [u8])
where
    [u8; UNIT]: Reversed,
{
    if UNIT > 8 {
        return one_by_one::<UNIT>(data, out);
    }
    let (blocks, rest) = data.as_chunks::<64>();
    let (out_blocks, out_rest) = out.as_chunks_mut::<64>();
    for (block, written) in blocks.iter().zip(out_blocks) {
        let mut halves = [0; 32];
        for (half, bytes) in halves.iter_mut().zip(block.as_chunks().0) {
            *half = u16::from_ne_bytes(*bytes).swap_bytes();
        }
        for (index, bytes) in written.as_chunks_mut().0.iter_mut().enumerate() {
            *bytes = halves[index ^ (UNIT / 2 - 1)].to_ne_bytes();
        }
    }
    one_by_one::<UNIT>(rest, out_rest);
}

/// Reverses in place the number that stands at `offset` in every element.
#[inline(always)]
pub(crate) fn column(unit: u8, elements: &mut [u8], width: usize, offset: usize) {
    match unit {
        2 => spaced::<2>(elements, width, offset),
        4 => spaced::<4>(elements, width, offset),
        8 => spaced::<8>(elements, width, offset),
        16 => spaced::<16>(elements, width, offset),
        _ => {}
    }
}

#[inline(never)]
fn spaced<const UNIT: usize>(elements: &mut [u8], width: usize, offset: usize)
where
    [u8; UNIT]: Reversed,
{
    for element in elements.chunks_exact_mut(width) {
        if let Some(number) = element[offset..].first_chunk_mut::<UNIT>() {
            *number = number.reversed();
        }
    }
}
