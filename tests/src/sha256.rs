//! SHA-256 written for tests from FIPS 180-4 alone. It shares nothing with the library: the constants are computed from the primes, and the
//! message is padded in a copy.

fn primes(count: usize) -> Vec<u128> {
    (2..).filter(|&n| (2..n).all(|d| n % d != 0)).take(count).collect()
}

/// The first 32 bits of the fraction of p's root of this degree.
fn fraction(p: u128, degree: u32) -> u32 {
    let (mut low, mut high) = (0u128, 1 << 40);
    while high - low > 1 {
        let middle = (low + high) / 2;
        if middle.pow(degree) <= p << (32 * degree) {
            low = middle;
        } else {
            high = middle;
        }
    }
    low as u32
}

fn padded(message: &[u8]) -> Vec<u8> {
    let mut bytes = message.to_vec();
    bytes.push(0x80);
    while bytes.len() % 64 != 56 {
        bytes.push(0);
    }
    bytes.extend_from_slice(&(8 * message.len() as u64).to_be_bytes());
    bytes
}

fn schedule(block: &[u8]) -> Vec<u32> {
    let mut w: Vec<u32> = block.chunks(4).map(|b| u32::from_be_bytes(b.try_into().unwrap())).collect();
    for t in 16..64 {
        let small0 = w[t - 15].rotate_right(7) ^ w[t - 15].rotate_right(18) ^ (w[t - 15] >> 3);
        let small1 = w[t - 2].rotate_right(17) ^ w[t - 2].rotate_right(19) ^ (w[t - 2] >> 10);
        w.push(small1.wrapping_add(w[t - 7]).wrapping_add(small0).wrapping_add(w[t - 16]));
    }
    w
}

pub struct Sha256 {
    constants: Vec<u32>,
    initial: Vec<u32>,
}

impl Default for Sha256 {
    fn default() -> Self {
        Self::new()
    }
}

impl Sha256 {
    pub fn new() -> Self {
        Sha256 {
            constants: primes(64).iter().map(|&p| fraction(p, 3)).collect(),
            initial: primes(8).iter().map(|&p| fraction(p, 2)).collect(),
        }
    }

    pub fn digest(&self, message: &[u8]) -> [u8; 32] {
        let mut hash = self.initial.clone();
        for block in padded(message).chunks(64) {
            let mut v = hash.clone();
            for (k, w) in self.constants.iter().zip(schedule(block)) {
                let big1 = v[4].rotate_right(6) ^ v[4].rotate_right(11) ^ v[4].rotate_right(25);
                let choice = (v[4] & v[5]) ^ (!v[4] & v[6]);
                let t1 = v[7].wrapping_add(big1).wrapping_add(choice).wrapping_add(*k).wrapping_add(w);
                let big0 = v[0].rotate_right(2) ^ v[0].rotate_right(13) ^ v[0].rotate_right(22);
                let majority = (v[0] & v[1]) ^ (v[0] & v[2]) ^ (v[1] & v[2]);
                v.rotate_right(1);
                v[4] = v[4].wrapping_add(t1);
                v[0] = t1.wrapping_add(big0).wrapping_add(majority);
            }
            for (h, x) in hash.iter_mut().zip(v) {
                *h = h.wrapping_add(x);
            }
        }
        let mut digest = [0; 32];
        for (place, word) in digest.chunks_mut(4).zip(hash) {
            place.copy_from_slice(&word.to_be_bytes());
        }
        digest
    }
}
