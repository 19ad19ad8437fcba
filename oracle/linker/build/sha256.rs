//! SHA-256 (FIPS 180-4).

/// The digest of `bytes`, as 64 hexadecimal digits.
pub fn hex_digest(bytes: &[u8]) -> String {
    let mut state = first_32_bits_of_roots(8, 2);
    let constants = first_32_bits_of_roots(64, 3);
    let mut padded = bytes.to_vec();
    padded.push(0x80);
    padded.resize((padded.len() + 8).next_multiple_of(64) - 8, 0);
    padded.extend((bytes.len() as u64 * 8).to_be_bytes());
    for block in padded.chunks_exact(64) {
        compress(&mut state, &constants, block);
    }
    state.iter().map(|word| format!("{word:08x}")).collect()
}

fn compress(state: &mut [u32], constants: &[u32], block: &[u8]) {
    let mut schedule: Vec<u32> = block.chunks_exact(4).map(|word| u32::from_be_bytes(word.try_into().unwrap())).collect();
    for t in 16..64 {
        let (near, far) = (schedule[t - 15], schedule[t - 2]);
        let small0 = near.rotate_right(7) ^ near.rotate_right(18) ^ (near >> 3);
        let small1 = far.rotate_right(17) ^ far.rotate_right(19) ^ (far >> 10);
        schedule.push(small1.wrapping_add(schedule[t - 7]).wrapping_add(small0).wrapping_add(schedule[t - 16]));
    }
    let mut work: [u32; 8] = state.try_into().unwrap();
    for (word, constant) in schedule.iter().zip(constants) {
        let [a, b, c, d, e, f, g, h] = work;
        let big1 = e.rotate_right(6) ^ e.rotate_right(11) ^ e.rotate_right(25);
        let chosen = (e & f) ^ (!e & g);
        let first = h.wrapping_add(big1).wrapping_add(chosen).wrapping_add(*constant).wrapping_add(*word);
        let big0 = a.rotate_right(2) ^ a.rotate_right(13) ^ a.rotate_right(22);
        let majority = (a & b) ^ (a & c) ^ (b & c);
        work = [first.wrapping_add(big0.wrapping_add(majority)), a, b, c, d.wrapping_add(first), e, f, g];
    }
    for (sum, word) in state.iter_mut().zip(work) {
        *sum = sum.wrapping_add(word);
    }
}

/// The first 32 bits of the fractional parts of the `degree`-th roots of the first primes.
fn first_32_bits_of_roots(count: usize, degree: u32) -> Vec<u32> {
    (2u128..)
        .filter(|number| (2..*number).all(|divisor| number % divisor != 0))
        .take(count)
        .map(|prime| {
            let scaled = prime << (32 * degree);
            let (mut low, mut high) = (0u128, 1 << 40);
            while high - low > 1 {
                let middle = (low + high) / 2;
                if middle.pow(degree) <= scaled { low = middle } else { high = middle }
            }
            low as u32
        })
        .collect()
}
