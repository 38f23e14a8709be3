//! Numbers in decimal.

/// The two digits of each number below 100.
const PAIRS: [[u8; 2]; 100] = pairs();

const fn pairs() -> [[u8; 2]; 100] {
    let (mut pairs, mut number) = ([[0; 2]; 100], 0);
    while number < 100 {
        pairs[number] = [b'0' + (number / 10) as u8, b'0' + (number % 10) as u8];
        number += 1;
    }
    pairs
}

/// How many digits the number has.
#[inline]
fn width(number: u32) -> usize {
    const POWERS: [u32; 10] = [0, 10, 100, 1_000, 10_000, 100_000, 1_000_000, 10_000_000, 100_000_000, 1_000_000_000];
    // The logarithm to base 10 from that to base 2, which is one too low at most.
    let least = ((32 - (number | 1).leading_zeros()) * 1233 >> 12) as usize % 16;
    match POWERS.get(least) {
        Some(power) => least + usize::from(number >= *power),
        None => least,
    }
}

/// Fills the room with the last digits of the number, as many as there is room for.
#[inline]
fn fill(room: &mut [u8], mut number: u32) {
    let mut pairs = room.rchunks_exact_mut(2);
    for pair in &mut pairs {
        pair.copy_from_slice(&PAIRS[(number % 100) as usize]);
        number /= 100;
    }
    if let [first] = pairs.into_remainder() {
        *first = b'0' + (number % 10) as u8;
    }
}

/// Writes the number from `at` on, and gives where it ends.
#[inline]
pub fn put(bytes: &mut [u8], at: usize, number: u64) -> usize {
    if number < 10 {
        bytes[at] = b'0' + number as u8;
        return at + 1;
    }
    if number < 100 {
        bytes[at..at + 2].copy_from_slice(&PAIRS[number as usize]);
        return at + 2;
    }
    match u32::try_from(number) {
        Ok(number) => put_short(bytes, at, number),
        Err(_) => put_long(bytes, at, number),
    }
}

#[inline(never)]
fn put_short(bytes: &mut [u8], at: usize, number: u32) -> usize {
    let end = at + width(number);
    fill(&mut bytes[at..end], number);
    end
}

/// The last nine digits stand behind what is written of the others.
#[cold]
#[inline(never)]
fn put_long(bytes: &mut [u8], at: usize, number: u64) -> usize {
    let at = put(bytes, at, number / 1_000_000_000);
    fill(&mut bytes[at..at + 9], (number % 1_000_000_000) as u32);
    at + 9
}

#[cfg(test)]
mod tests {
    #[test]
    fn numbers_are_written_as_rust_writes_them() {
        let powers = (0..20).map(|power| 10u64.pow(power));
        let others = (0..64).map(|power| 1u64 << power);
        for number in powers.chain(others).flat_map(|it| [it - 1, it, it + 1]).chain([u64::MAX]) {
            let mut bytes = [b'x'; 24];
            let end = super::put(&mut bytes, 1, number);
            assert_eq!(&bytes[..=end], format!("x{number}x").as_bytes());
        }
    }
}
