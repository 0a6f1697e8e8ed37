//! Refusal 12. No script is long enough to reach it, so the model is shown a device that has one number left.

use crate::said::{said_to, Said};
use crate::script::Session;
use crate::why::Why;

/// Each remark is the answer.
const OF_FACE: &str = "
numbers # last=18446744073709551614 temp=0 waiting=-
spi 14 00 # 0
frame 123 std data 0 ack # 0 Queued
numbers # last=18446744073709551615 temp=18446744073709551615 waiting=18446744073709551615
spi 24 05 # 0
spi DE # 0 C8
frame 123 std data 0 ack # 12
frame 800 std data 0 ack # 8
spi EA # 0 05
spi DE # 0 00
numbers # last=18446744073709551615 temp=18446744073709551615 waiting=18446744073709551615
spi 14 40 # 0
frame 123 std data 0 noack # 0 A3
frame 123 std data 0 ack # 12
spi 14 20 # 0
frame 123 std data 0 ack # 0 A1
done # 8
spi 12 41 24 60 00 # 0
spi 16 80 # 0
begin # 0
done # 12
spi DA # 0 03
spi EE # 7
spi 14 00 # 0
begin # 0
done # 0
spi EE # 0 41 00 00
mr # 0
numbers # last=18446744073709551615 temp=0 waiting=-
spi 74 80 00 00 00 00 00 # 0
spi 76 80 00 00 00 00 00 # 0
spi 78 80 00 00 00 00 00 # 0
spi 7A 80 00 00 00 00 00 # 0
spi 7C 80 00 00 00 00 00 # 0
spi 7E 80 00 00 00 00 00 # 0
spi 82 80 00 00 00 00 00 # 0
spi 84 80 00 00 00 00 00 # 0
spi 16 10 # 0
spi 14 70 # 0
hits 7FF std data 0 # 0 00 0
quiet # 0
frame 7FF std data 0 ack # 0 A1
spi D2 # 0 50
frame 7FF std data 0 ack # 12
spi 42 # 0 00 00 00 00 00 00 00 00 00 00 00 00 00 00 00
";
/// The first frame takes the number that is left.
const OF_WHY: &str = "
spi 14 00
frame 123 std data 0 ack
frame 123 std data 0 ack # line 4: 12: refused
numbers
frame 123 std data 0 ack # 12: so it would be answered
";
const ONE_LEFT: u64 = u64::MAX - 1;

fn as_remarked(script: &str, said: &[Said]) -> bool {
    let remarks = script.lines().filter_map(|line| line.split_once("# "));
    let expected: Vec<&str> = remarks.map(|(_, answer)| answer).collect();
    let said: Vec<String> = said.iter().map(Said::text).collect();
    if said != expected {
        eprintln!("expected {:#?}\nthe model says {:#?}", expected, said);
    }
    said == expected
}

/// True when the model answers by the rule.
pub fn holds() -> bool {
    let mut face = Session::fresh();
    face.device.numbers_given = ONE_LEFT;
    let mut why = Why::fresh();
    why.device.numbers_given = ONE_LEFT;
    let face_holds = as_remarked(OF_FACE, &said_to(face, OF_FACE.as_bytes()));
    as_remarked(OF_WHY, &said_to(why, OF_WHY.as_bytes())) && face_holds
}
