//! The signature library beside an independent SHA-256, and on FIPS 180-4's examples.
use tests::random::Random;
use tests::sha256::Sha256;
use tests::signature::{block_digest, is_signed, sha256};

fn hexadecimal(digest: &[u8]) -> String {
    digest.iter().map(|b| format!("{b:02x}")).collect()
}

#[test]
fn one_million_a() {
    let digest = sha256(&vec![b'a'; 1_000_000]);
    assert_eq!(hexadecimal(&digest), "cdc76e5c9914fb9281a1c7e284d73e67f1809a48a497200e046d39ccc7112cd0");
}

#[test]
fn published_examples() {
    let examples: [(&[u8], &str); 3] = [
        (b"abc", "ba7816bf8f01cfea414140de5dae2223b00361a396177a9cb410ff61f20015ad"),
        (b"", "e3b0c44298fc1c149afbf4c8996fb92427ae41e4649b934ca495991b7852b855"),
        (
            b"abcdbcdecdefdefgefghfghighijhijkijkljklmklmnlmnomnopnopq",
            "248d6a61d20638b8e5c026930c3e6039a33ce45964ff2167f6ecedd419db06c1",
        ),
    ];
    let reference = Sha256::new();
    for (message, digest) in examples {
        assert_eq!(hexadecimal(&sha256(message)), digest);
        assert_eq!(hexadecimal(&reference.digest(message)), digest);
    }
}

/// Every length up to five blocks, so that each form of the padding occurs.
#[test]
fn every_short_length() {
    let reference = Sha256::new();
    let mut random = Random::new(1);
    for length in 0..=320 {
        let message = random.bytes(length);
        assert_eq!(sha256(&message), reference.digest(&message), "length {length}");
    }
}

#[test]
fn random_long_messages() {
    let reference = Sha256::new();
    let mut random = Random::new(2);
    for _ in 0..200 {
        let length = random.below(20_000);
        let message = random.bytes(length);
        assert_eq!(sha256(&message), reference.digest(&message), "length {length}");
    }
}

/// A message read at any alignment, with other bytes on both sides of it.
#[test]
fn part_of_a_larger_buffer() {
    let reference = Sha256::new();
    let buffer = Random::new(3).bytes(3 * 4096);
    for start in 0..64 {
        let block = &buffer[start..start + 4096];
        assert_eq!(sha256(block), reference.digest(block), "start {start}");
    }
}

/// What is hashed for a block.
fn placed(number: u32, contents: &[u8]) -> Vec<u8> {
    [&number.to_be_bytes(), contents].concat()
}

/// Every bit of the number, contents of every length about the parts of 64 bytes, at any alignment.
#[test]
fn digests_of_blocks() {
    let reference = Sha256::new();
    let buffer = Random::new(5).bytes(2 * 4096);
    for number in (0..32).map(|bit| 1 << bit).chain([0, 0x104, 0xF_FFFF, u32::MAX, 0x0102_0304]) {
        let contents = &buffer[..4096];
        let digest = block_digest(contents, number);
        assert_eq!(digest, reference.digest(&placed(number, contents)), "number {number:#x}");
        for other in [number ^ 1, number ^ 1 << 31, number.swap_bytes(), number.wrapping_add(256)] {
            assert_eq!(is_signed(contents, &digest, other), other == number, "{number:#x} for {other:#x}");
        }
    }
    for length in (0..=260).chain(4030..=4100) {
        for start in [0, 1, 60, 64] {
            let contents = &buffer[start..start + length];
            assert_eq!(
                block_digest(contents, 0x104),
                reference.digest(&placed(0x104, contents)),
                "{length} from {start}"
            );
        }
    }
}

/// Two blocks that are signed, each in its place, and exchanged.
#[test]
fn exchanged_blocks() {
    let mut random = Random::new(6);
    let (one, two) = (random.bytes(4096), random.bytes(4096));
    let golden = [block_digest(&one, 0x105), block_digest(&two, 0x106)].concat();
    assert!(is_signed(&one, &golden, 0x105) && is_signed(&two, &golden, 0x106));
    assert!(!is_signed(&one, &golden, 0x106) && !is_signed(&two, &golden, 0x105));
    assert!(!is_signed(&one, &golden, 0x205) && !is_signed(&two, &golden, 0x206));
}

#[test]
fn searches_of_golden_images() {
    let reference = Sha256::new();
    let mut random = Random::new(4);
    let block = random.bytes(4096);
    let digest = reference.digest(&placed(0x104, &block));
    for digests in [1, 2, 3, 1_023, 1_024, 1_025] {
        let mut golden = random.bytes(32 * digests);
        assert!(!is_signed(&block, &golden, 0x104));
        for place in [0, digests / 2, digests - 1] {
            let mut image = golden.clone();
            image[32 * place..32 * place + 32].copy_from_slice(&digest);
            assert!(is_signed(&block, &image, 0x104), "digest {place} of {digests}");
            for byte in 0..32 {
                let mut wrong = image.clone();
                wrong[32 * place + byte] ^= 1 << random.below(8);
                assert!(!is_signed(&block, &wrong, 0x104), "byte {byte} of digest {place} of {digests}");
            }
        }
        golden.extend_from_slice(&digest[..31]);
        assert!(!is_signed(&block, &golden, 0x104), "a rest shorter than a digest");
    }
    assert!(!is_signed(&block, &[], 0x104));
}

/// A digest that stands in the image, but not where a digest starts.
#[test]
fn digests_are_end_to_end() {
    let block = [7; 4096];
    let digest = block_digest(&block, 0x104);
    for shift in 1..32 {
        let mut golden = vec![0; 96];
        golden[shift..shift + 32].copy_from_slice(&digest);
        assert!(!is_signed(&block, &golden, 0x104), "shifted by {shift}");
    }
}

#[test]
fn repeated_digests() {
    let block = [9; 4096];
    let digest = block_digest(&block, 0x104);
    assert!(is_signed(&block, &digest.repeat(1_024), 0x104));
}
