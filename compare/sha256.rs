//! SHA-256 (FIPS 180-4), so that the build needs no other crate.

/// The digest of `bytes` in lower-case hexadecimal.
pub fn hex(bytes: &[u8]) -> String {
    let (mut state, constants) = start_values();
    let mut padded = bytes.to_vec();
    padded.push(0x80);
    while padded.len() % 64 != 56 {
        padded.push(0);
    }
    padded.extend((bytes.len() as u64 * 8).to_be_bytes());

    for block in padded.chunks(64) {
        let mut w = [0u32; 64];
        for (word, part) in w.iter_mut().zip(block.chunks(4)) {
            *word = u32::from_be_bytes(part.try_into().unwrap());
        }
        for i in 16..64 {
            let (a, b) = (w[i - 15], w[i - 2]);
            let s0 = a.rotate_right(7) ^ a.rotate_right(18) ^ (a >> 3);
            let s1 = b.rotate_right(17) ^ b.rotate_right(19) ^ (b >> 10);
            w[i] = w[i - 16]
                .wrapping_add(s0)
                .wrapping_add(w[i - 7])
                .wrapping_add(s1);
        }
        let [mut a, mut b, mut c, mut d, mut e, mut f, mut g, mut h] = state;
        for i in 0..64 {
            let s1 = e.rotate_right(6) ^ e.rotate_right(11) ^ e.rotate_right(25);
            let t1 = h
                .wrapping_add(s1)
                .wrapping_add((e & f) ^ (!e & g))
                .wrapping_add(constants[i])
                .wrapping_add(w[i]);
            let s0 = a.rotate_right(2) ^ a.rotate_right(13) ^ a.rotate_right(22);
            let t2 = s0.wrapping_add((a & b) ^ (a & c) ^ (b & c));
            (h, g, f, e, d, c, b, a) = (g, f, e, d.wrapping_add(t1), c, b, a, t1.wrapping_add(t2));
        }
        for (old, new) in state.iter_mut().zip([a, b, c, d, e, f, g, h]) {
            *old = old.wrapping_add(new);
        }
    }
    state.iter().map(|word| format!("{word:08x}")).collect()
}

/// The first 32 bits behind the point of the square roots of the first 8
/// primes, and of the cube roots of the first 64.
fn start_values() -> ([u32; 8], [u32; 64]) {
    let primes: Vec<u128> = (2u128..312)
        .filter(|&n| (2..n).all(|d| n % d != 0))
        .collect();
    let mut state = [0; 8];
    for (word, &p) in state.iter_mut().zip(&primes) {
        *word = root(p << 64, 2);
    }
    let mut constants = [0; 64];
    for (word, &p) in constants.iter_mut().zip(&primes) {
        *word = root(p << 96, 3);
    }
    (state, constants)
}

/// The low 32 bits of the whole root of `n`.
fn root(n: u128, power: u32) -> u32 {
    let (mut low, mut high) = (0u128, 1u128 << 40);
    while high - low > 1 {
        let middle = (low + high) / 2;
        if middle.pow(power) <= n {
            low = middle;
        } else {
            high = middle;
        }
    }
    low as u32
}
