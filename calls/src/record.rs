//! The records of `pagemon` and of the runner (program 2 of docs/RULES.md).
use crate::call::Call;
use crate::kind::Kind;

pub const MARK: [u8; 2] = [0x50, 0x54];
pub const RECORD_WORDS: usize = 4;
/// The mark, the call byte and the words.
pub const RECORD_BYTES: usize = 3 + 4 * RECORD_WORDS;

impl Call {
    /// The record of a call that records can say.
    ///
    /// # Panics
    ///
    /// If the call has no call byte.
    pub fn record(&self) -> [u8; RECORD_BYTES] {
        let mut record = [0; RECORD_BYTES];
        record[..2].copy_from_slice(&MARK);
        record[2] = self.kind.byte().unwrap_or_else(|| panic!("no record can say {self}"));
        for (place, word) in record[3..].chunks_exact_mut(4).zip(self.arguments) {
            place.copy_from_slice(&word.to_le_bytes());
        }
        record
    }

    /// The call that a record holds, or what is wrong with the record.
    pub fn of_record(record: &[u8]) -> Result<Call, String> {
        let Some((head, words)) = record.split_at_checked(3).filter(|_| record.len() == RECORD_BYTES) else {
            return Err(format!("short: {} of {RECORD_BYTES} bytes", record.len()));
        };
        if head[..2] != MARK {
            return Err(format!("the mark is {:02x} {:02x}, not {:02x} {:02x}", head[0], head[1], MARK[0], MARK[1]));
        }
        let kind = Kind::of_byte(head[2]).ok_or_else(|| format!("there is no call {}", head[2]))?;
        let words: Vec<u32> = words.chunks_exact(4).map(|b| u32::from_le_bytes([b[0], b[1], b[2], b[3]])).collect();
        Ok(Call::new(kind, &words))
    }
}

/// The records of a list of calls.
pub fn records(calls: &[Call]) -> Vec<u8> {
    calls.iter().flat_map(Call::record).collect()
}

#[cfg(test)]
mod tests {
    use super::*;
    use crate::random::Random;

    #[test]
    fn bytes_of_a_record() {
        let record = Call::new(Kind::MapL2, &[4, 5, 0x8877_6655, 3]).record();
        assert_eq!(record, [0x50, 0x54, 7, 4, 0, 0, 0, 5, 0, 0, 0, 0x55, 0x66, 0x77, 0x88, 3, 0, 0, 0]);
    }

    #[test]
    fn records_lead_back() {
        let mut random = Random::new(1);
        for kind in Kind::recorded() {
            let call = Call::new(kind, &[(); RECORD_WORDS].map(|()| random.next() as u32));
            assert_eq!(Call::of_record(&call.record()), Ok(call));
        }
    }

    #[test]
    #[should_panic(expected = "no record can say forget 256 1")]
    fn forget_has_no_record() {
        Call::new(Kind::Forget, &[256, 1]).record();
    }

    #[test]
    #[should_panic(expected = "no record can say acknowledge")]
    fn acknowledge_has_no_record() {
        Call::new(Kind::Acknowledge, &[]).record();
    }

    #[test]
    fn wrong_records() {
        let good = Call::new(Kind::Fetch, &[0]).record();
        let with = |at: usize, byte: u8| {
            let mut record = good;
            record[at] = byte;
            Call::of_record(&record).unwrap_err()
        };
        assert_eq!(with(0, 0x51), "the mark is 51 54, not 50 54");
        assert_eq!(with(1, 0x50), "the mark is 50 50, not 50 54");
        assert_eq!(with(2, 0), "there is no call 0");
        assert_eq!(with(2, 17), "there is no call 17");
        assert_eq!(with(2, 255), "there is no call 255");
        assert_eq!(Call::of_record(&good[..18]), Err("short: 18 of 19 bytes".to_string()));
        assert_eq!(Call::of_record(&good[..1]), Err("short: 1 of 19 bytes".to_string()));
    }
}
