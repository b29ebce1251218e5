//! SHA-256, so that a printed page belongs to one batch: `sha256sum` prints the same.

/// The first 32 bits of the fractional parts of the cube roots of the first 64 primes.
fn constants() -> [u32; 64] {
    let mut out = [0u32; 64];
    for (place, prime) in out.iter_mut().zip(primes()) {
        *place = root_bits(prime, 3);
    }
    out
}

fn primes() -> impl Iterator<Item = u128> {
    (2u128..).filter(|n| (2..*n).take_while(|d| d * d <= *n).all(|d| n % d != 0))
}

/// The first 32 bits behind the point of the root of that degree, 2 or 3: the largest r with r^degree <= n * 2^(32 * degree), modulo 2^32.
fn root_bits(n: u128, degree: u32) -> u32 {
    let goal = n << (32 * degree);
    let (mut low, mut high) = (0u128, 1u128 << 37);
    while high - low > 1 {
        let middle = (low + high) / 2;
        if middle.pow(degree) <= goal {
            low = middle;
        } else {
            high = middle;
        }
    }
    low as u32
}

/// The digest of the bytes as 64 hexadecimal digits.
pub fn sha256(bytes: &[u8]) -> String {
    let k = constants();
    let mut state = [0u32; 8];
    for (place, prime) in state.iter_mut().zip(primes()) {
        *place = root_bits(prime, 2);
    }
    let whole = bytes.len() / 64 * 64;
    for chunk in bytes[..whole].chunks_exact(64) {
        mix(&mut state, chunk, &k);
    }
    let mut tail = bytes[whole..].to_vec();
    tail.push(0x80);
    while tail.len() % 64 != 56 {
        tail.push(0);
    }
    tail.extend_from_slice(&(bytes.len() as u64 * 8).to_be_bytes());
    for chunk in tail.chunks_exact(64) {
        mix(&mut state, chunk, &k);
    }
    state.iter().map(|word| format!("{word:08x}")).collect()
}

fn mix(state: &mut [u32; 8], chunk: &[u8], k: &[u32; 64]) {
    let mut w = [0u32; 64];
    for (place, four) in w.iter_mut().zip(chunk.chunks_exact(4)) {
        *place = u32::from_be_bytes([four[0], four[1], four[2], four[3]]);
    }
    for i in 16..64 {
        let (x, y) = (w[i - 15], w[i - 2]);
        let s0 = x.rotate_right(7) ^ x.rotate_right(18) ^ (x >> 3);
        let s1 = y.rotate_right(17) ^ y.rotate_right(19) ^ (y >> 10);
        w[i] = w[i - 16].wrapping_add(s0).wrapping_add(w[i - 7]).wrapping_add(s1);
    }
    let [mut a, mut b, mut c, mut d, mut e, mut f, mut g, mut h] = *state;
    for i in 0..64 {
        let s1 = e.rotate_right(6) ^ e.rotate_right(11) ^ e.rotate_right(25);
        let t1 = h.wrapping_add(s1).wrapping_add((e & f) ^ (!e & g)).wrapping_add(k[i]).wrapping_add(w[i]);
        let s0 = a.rotate_right(2) ^ a.rotate_right(13) ^ a.rotate_right(22);
        let t2 = s0.wrapping_add((a & b) ^ (a & c) ^ (b & c));
        (h, g, f, e, d, c, b, a) = (g, f, e, d.wrapping_add(t1), c, b, a, t1.wrapping_add(t2));
    }
    for (place, x) in state.iter_mut().zip([a, b, c, d, e, f, g, h]) {
        *place = place.wrapping_add(x);
    }
}

#[cfg(test)]
mod tests {
    use super::sha256;

    /// The examples of FIPS 180, and lengths around a chunk's end.
    #[test]
    fn known_digests() {
        assert_eq!(sha256(b""), "e3b0c44298fc1c149afbf4c8996fb92427ae41e4649b934ca495991b7852b855");
        assert_eq!(sha256(b"abc"), "ba7816bf8f01cfea414140de5dae2223b00361a396177a9cb410ff61f20015ad");
        let long = b"abcdbcdecdefdefgefghfghighijhijkijkljklmklmnlmnomnopnopq";
        assert_eq!(sha256(long), "248d6a61d20638b8e5c026930c3e6039a33ce45964ff2167f6ecedd419db06c1");
        let ends: Vec<String> = [55, 56, 63, 64, 65].iter().map(|&n| sha256(&vec![b'a'; n])[..8].to_string()).collect();
        assert_eq!(ends, ["9f4390f8", "b35439a4", "7d3e74a0", "ffe054fe", "635361c4"]);
    }
}
