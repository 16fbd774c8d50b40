//! The small program: one frame a line on a fresh image with B = 3.

use crate::calls::{self, Place, Refusal};
use crate::prepare::fresh_image;
use crate::shape::Shape;

/// What a malformed line is answered by.
const MALFORMED: &str = "FF090000000000000000";

/// The value of a run of upper-case hex digits.
fn hex(digits: &[u8]) -> Option<u64> {
    digits.iter().try_fold(0, |value, digit| match digit {
        b'0'..=b'9' => Some(value * 16 + (digit - b'0') as u64),
        b'A'..=b'F' => Some(value * 16 + (digit - b'A') as u64 + 10),
        _ => None,
    })
}

/// Operation and hash of a frame.
fn parse(line: &[u8]) -> Option<(u64, u64)> {
    if line.len() != 18 {
        return None;
    }
    let (operation, hash) = (hex(&line[..2])?, hex(&line[2..])?);
    match operation {
        1..=4 => Some((operation, hash)),
        5 if hash == 0 => Some((operation, hash)),
        _ => None,
    }
}

/// Every member of the image, by one walk from front bucket 0 to the end.
fn list(image: &[u8]) -> Result<Vec<u64>, Refusal> {
    let mut tail = [0; 2];
    calls::tail(image, &mut tail)?;
    let [_, changes] = tail;
    let fronts = Shape { b: 3 }.fronts();
    let mut all = Vec::new();
    let mut next = 0;
    while next < fronts {
        let mut out = [0; 100];
        let paged = calls::page(image, next, changes, &mut out)?;
        all.extend(&out[..paged.how_many as usize]);
        next = paged.next;
    }
    Ok(all)
}

/// Performs one operation: its value, and the lines that follow the answer.
fn perform(image: &mut [u8], operation: u64, hash: u64) -> Result<(u64, Vec<u64>), Refusal> {
    let value = match operation {
        1 => calls::insert(image, hash)?,
        2 => calls::delete(image, hash)?,
        3 => {
            let asked = calls::ask(image, hash)?;
            let place = match asked.place {
                Place::None => 0,
                Place::Front(_) => 1,
                Place::First(_) => 2,
                Place::Second(_) => 3,
            };
            asked.reads + 16 * place
        }
        4 => calls::count(image, hash)?.copies,
        _ => {
            let all = list(image)?;
            return Ok((all.len() as u64, all));
        }
    };
    Ok((value, Vec::new()))
}

/// The lines that answer one line.
pub fn answer(image: &mut [u8], line: &[u8]) -> String {
    let Some((operation, hash)) = parse(line) else {
        return format!("{MALFORMED}\n");
    };
    match perform(image, operation, hash) {
        Ok((value, listed)) => {
            let mut text = format!("{operation:02X}00{value:016X}\n");
            for g in listed {
                text += &format!("{g:016X}\n");
            }
            text
        }
        Err(refusal) => {
            let (number, value) = (refusal.number, refusal.table.unwrap_or(0));
            format!("{operation:02X}{number:02X}{value:016X}\n")
        }
    }
}

/// The whole output for a whole input.
pub fn run(input: &[u8]) -> String {
    let mut image = fresh_image(3);
    let mut lines: Vec<&[u8]> = input.split(|&byte| byte == b'\n').collect();
    // What follows the last newline is a line only where it has a byte.
    if lines.last() == Some(&&b""[..]) {
        lines.pop();
    }
    lines.iter().map(|line| answer(&mut image, line)).collect()
}

#[cfg(test)]
mod tests {
    use super::run;

    const INPUT: &str = "\
018000000040000007
018000000040000007
030000000000000000
048000000040000007
028000000040000007
050000000000000000
";

    const OUTPUT: &str = "\
01000000000000000000
01000000000000000000
03000000000000000001
04000000000000000002
02000000000000000000
05000000000000000001
0000000001B90007
";

    #[test]
    fn example() {
        assert_eq!(run(INPUT.as_bytes()), OUTPUT);
        assert_eq!(run(INPUT.trim_end().as_bytes()), OUTPUT);
        assert_eq!(run(b""), "");
    }

    #[test]
    fn malformed_lines() {
        for line in [
            "",
            "01",
            "018000000040000007\r",
            "01800000004000000a",
            "0180000000400000070",
            "01800000004000000",
            "000000000000000000",
            "060000000000000000",
            "050000000000000001",
            " 18000000040000007",
            "+18000000040000007",
        ] {
            assert_eq!(
                run(format!("{line}\n").as_bytes()),
                "FF090000000000000000\n"
            );
        }
        assert_eq!(run(b"\n\n01"), "FF090000000000000000\n".repeat(3));
    }

    #[test]
    fn refusals_and_places() {
        let lines = |operation: &str, n| format!("{operation}8AAAAAAB00000000\n").repeat(n);
        // 0x8AAAAAAB × 24 / 2^32 = 13: 72 copies fit, the 73rd is full.
        let output = run((lines("01", 73) + &lines("03", 1) + &lines("04", 1)).as_bytes());
        let output: Vec<&str> = output.lines().collect();
        assert_eq!(output[27], "01000000000000000000");
        // The tie goes to b1 = 5, the next one to b0 = 1.
        assert_eq!(output[28], "01000000000000000006");
        assert_eq!(output[29], "01000000000000000002");
        assert_eq!(output[72], "01040000000000000000");
        assert_eq!(output[73], "03000000000000000011");
        assert_eq!(output[74], "04000000000000000048");
        assert_eq!(run(lines("02", 1).as_bytes()), "02050000000000000000\n");
    }
}
