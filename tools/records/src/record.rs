//! Records to readable lines.
use calls::{Call, RECORD_BYTES};

/// The calls of the records up to the first wrong one, and what is wrong with that one. Records are numbered from 1.
pub fn decode(records: &[u8]) -> (Vec<Call>, Option<String>) {
    let mut calls = Vec::new();
    for record in records.chunks(RECORD_BYTES) {
        match Call::of_record(record) {
            Ok(call) => calls.push(call),
            Err(wrong) => {
                let number = calls.len() + 1;
                return (calls, Some(format!("record {number}: {wrong}")));
            }
        }
    }
    (calls, None)
}

/// The script of these calls.
pub fn lines(calls: &[Call]) -> String {
    calls.iter().map(|call| format!("{call}\n")).collect()
}

#[cfg(test)]
mod tests {
    use super::*;
    use crate::script::parse;
    use calls::random::Random;
    use calls::{records, Kind};

    /// What becomes of records as lines and then as records.
    fn there_and_back(records: &[u8]) -> Vec<u8> {
        let (calls, wrong) = decode(records);
        assert_eq!(wrong, None);
        calls::records(&parse(lines(&calls).as_bytes()).unwrap())
    }

    #[test]
    fn nothing_is_no_record() {
        assert_eq!(decode(&[]), (vec![], None));
        assert_eq!(there_and_back(&[]), []);
    }

    /// Every call, with words that are 0 or anything.
    #[test]
    fn every_record_comes_back() {
        let mut random = Random::new(1);
        for kind in Kind::recorded() {
            for zeros in 0..16 {
                let word = |place: usize| if zeros >> place & 1 == 1 { 0 } else { random.next() as u32 };
                let call = Call::new(kind, &[0, 1, 2, 3].map(word));
                assert_eq!(there_and_back(&call.record()), call.record(), "{call}");
            }
        }
    }

    #[test]
    fn every_list_comes_back() {
        let mut random = Random::new(2);
        let call_bytes: Vec<u8> = Kind::recorded().filter_map(Kind::byte).collect();
        for length in [1, 2, 100, 3000] {
            let bytes: Vec<u8> = (0..length)
                .flat_map(|_| [vec![0x50, 0x54, random.one_of(&call_bytes)], random.bytes(16)].concat())
                .collect();
            assert!(there_and_back(&bytes) == bytes, "{length} records");
        }
    }

    #[test]
    fn wrong_records_are_numbered() {
        let good = [Call::new(Kind::Begin, &[0]); 3];
        for (wrong, what) in [(vec![0; 18], "short: 18 of 19 bytes"), (vec![0; 19], "the mark is 00 00, not 50 54")] {
            assert_eq!(decode(&[records(&good), wrong].concat()), (good.to_vec(), Some(format!("record 4: {what}"))));
        }
    }
}
