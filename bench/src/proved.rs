//! The proved judge, through the static library that `./staticlib` makes.
//! Nothing of it is used by the independent judge.

use crate::log::{judge as rust_judge, line, Outcome};
use crate::timing::Judge;
use crate::version::Version;

/// A judge with its name.
pub type Named = (&'static str, Judge);

/// The judges that are timed beside each other on logs of a version, the Rust
/// judge last; the earlier one where it is linked and reads the version.
pub fn judges(version: Version) -> Vec<Named> {
    let mut judges = vec![("proved", judge as Judge)];
    judges.extend(earlier_judge_of(version));
    judges.push(("Rust", rust_judge));
    judges
}

/// Fails where one of these judges writes another line than the Rust judge. An
/// earlier one may be of before R-6 and know no fourth number.
pub fn assert_agreed(judges: &[Named], log: &[u8]) {
    let expected = line(rust_judge(log));
    for (name, judge) in judges {
        assert_eq!(line(judge(log)), expected, "{name} agrees");
    }
}

/// The earlier judge, unless it refuses the least header of the version.
#[cfg(feature = "earlier")]
fn earlier_judge_of(version: Version) -> Option<Named> {
    let least = crate::header::Header::new(version, vec![[0, 0, 0]], vec![0]);
    let refused = earlier(&least.bytes()).stop == crate::number::STOP_NOT_ADMITTED;
    (!refused).then_some(("earlier", earlier as Judge))
}

#[cfg(not(feature = "earlier"))]
fn earlier_judge_of(_: Version) -> Option<Named> {
    None
}

/// As `include/claysaucer.h` declares it: a slice is its pointer and its
/// length.
type Exported = unsafe extern "C" fn(log: *const u8, length: usize) -> u64;

#[allow(unsafe_code)]
extern "C" {
    fn claysaucer_judge(log: *const u8, length: usize) -> u64;

    /// The same of an earlier commit, renamed by `bench/earlier`.
    #[cfg(feature = "earlier")]
    fn earlier_judge(log: *const u8, length: usize) -> u64;
}

/// Runs a log on the proved judge.
pub fn judge(log: &[u8]) -> Outcome {
    call(claysaucer_judge, log)
}

/// Runs a log on the proved judge of an earlier commit.
#[cfg(feature = "earlier")]
pub fn earlier(log: &[u8]) -> Outcome {
    call(earlier_judge, log)
}

fn call(judge: Exported, log: &[u8]) -> Outcome {
    // SAFETY: a slice's pointer is not null, also where it is empty, and its
    // bytes can be read and are not written while it is lent. The function
    // has no other condition.
    #[allow(unsafe_code)]
    let packed = unsafe { judge(log.as_ptr(), log.len()) };
    unpacked(packed)
}

/// Bits 0 to 7 are the verdict, 8 to 15 the stop, 16 to 23 the last read, 24 to
/// 31 zero, 32 to 63 the steps.
fn unpacked(packed: u64) -> Outcome {
    let [verdict, stop, read, zero, steps @ ..] = packed.to_le_bytes();
    assert_eq!(zero, 0, "bits 24 to 31 of {packed:#018X}");
    Outcome {
        steps: u32::from_le_bytes(steps),
        stop,
        verdict,
        read,
    }
}

#[cfg(test)]
mod tests {
    use super::*;

    #[test]
    fn each_number_has_its_bits() {
        let expected = Outcome {
            steps: 0x0001_0203,
            stop: 14,
            verdict: 4,
            read: 8,
        };
        assert_eq!(unpacked(0x0001_0203_0008_0E04), expected);
    }

    /// Each byte alone, all its bits set.
    #[test]
    fn no_number_has_bits_of_another() {
        let numbers = |packed| {
            let own = unpacked(packed);
            (own.steps, own.stop, own.verdict, own.read)
        };
        assert_eq!(numbers(0), (0, 0, 0, 0));
        assert_eq!(numbers(0xFF), (0, 0, 255, 0));
        assert_eq!(numbers(0xFF00), (0, 255, 0, 0));
        assert_eq!(numbers(0xFF_0000), (0, 0, 0, 255));
        assert_eq!(numbers(0xFFFF_FFFF_0000_0000), (u32::MAX, 0, 0, 0));
    }

    #[test]
    fn bits_24_to_31_are_held_to_zero() {
        for bit in 24..32 {
            let refused = std::panic::catch_unwind(|| unpacked(1 << bit));
            assert!(refused.is_err(), "bit {bit}");
        }
    }
}
