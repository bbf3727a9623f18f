//! SHA-256 (FIPS 180-4), by which a page names the chart that it is of.

const FIRST: usize = 8;
const ROUNDS: usize = 64;

/// The checksum of these bytes, in hexadecimal digits as sha256sum prints them.
pub fn sha256(bytes: &[u8]) -> String {
    let primes = primes();
    let mut state: [u32; FIRST] = std::array::from_fn(|place| root_bits(primes[place], 2));
    let constants: [u32; ROUNDS] = std::array::from_fn(|place| root_bits(primes[place], 3));
    for block in padded(bytes).chunks_exact(64) {
        let added = compressed(state, &constants, block);
        state = std::array::from_fn(|place| state[place].wrapping_add(added[place]));
    }
    state.iter().map(|word| format!("{word:08x}")).collect()
}

/// The first primes.
fn primes() -> Vec<u64> {
    let is_prime = |number: &u64| (2..*number).all(|divisor| number % divisor != 0);
    (2..).filter(is_prime).take(ROUNDS).collect()
}

/// The first 32 bits behind the point of a prime's second or third root.
fn root_bits(prime: u64, power: u32) -> u32 {
    // of prime * 2^(32 * power), the largest whole number whose power is no more: at most 9 bits before the 32
    let wanted = u128::from(prime) << (32 * power);
    let (mut low, mut high) = (0_u128, 1 << 41);
    while high - low > 1 {
        let middle = (low + high) / 2;
        if middle.pow(power) <= wanted {
            low = middle;
        } else {
            high = middle;
        }
    }
    low as u32
}

/// The bytes, a bit 1, bits 0 and the number of bits, all together whole blocks of 64 bytes.
fn padded(bytes: &[u8]) -> Vec<u8> {
    let mut padded = bytes.to_vec();
    padded.push(0x80);
    padded.resize((bytes.len() + 9).next_multiple_of(64) - 8, 0);
    padded.extend((bytes.len() as u64 * 8).to_be_bytes());
    padded
}

fn compressed(state: [u32; FIRST], constants: &[u32; ROUNDS], block: &[u8]) -> [u32; FIRST] {
    let mut words: Vec<u32> = block
        .chunks_exact(4)
        .map(|word| word.iter().fold(0, |word, byte| word << 8 | u32::from(*byte)))
        .collect();
    for place in words.len()..ROUNDS {
        let (early, late) = (words[place - 15], words[place - 2]);
        let mixed = (early.rotate_right(7) ^ early.rotate_right(18) ^ early >> 3)
            .wrapping_add(late.rotate_right(17) ^ late.rotate_right(19) ^ late >> 10);
        words.push(mixed.wrapping_add(words[place - 16]).wrapping_add(words[place - 7]));
    }
    let [mut a, mut b, mut c, mut d, mut e, mut f, mut g, mut h] = state;
    for (constant, word) in constants.iter().zip(words) {
        let chosen = (e & f) ^ (!e & g);
        let one = h
            .wrapping_add(e.rotate_right(6) ^ e.rotate_right(11) ^ e.rotate_right(25))
            .wrapping_add(chosen)
            .wrapping_add(*constant)
            .wrapping_add(word);
        let most = (a & b) ^ (a & c) ^ (b & c);
        let two = (a.rotate_right(2) ^ a.rotate_right(13) ^ a.rotate_right(22)).wrapping_add(most);
        [a, b, c, d, e, f, g, h] = [one.wrapping_add(two), a, b, c, d.wrapping_add(one), e, f, g];
    }
    [a, b, c, d, e, f, g, h]
}
