//! What the tables of cases have in common: digits, and changes of the
//! ground, each by a letter and four digits.

/// One change of the ground: its letter, and the digits for a process, a
/// cell, a field and a value.
pub struct Act {
    pub letter: char,
    pub p: u8,
    pub c: u8,
    pub f: u8,
    pub v: u8,
}

impl Act {
    /// The changes of a case, each behind a +.
    pub fn read_all(changes: &str) -> impl Iterator<Item = Act> + '_ {
        changes.split_terminator('+').skip(1).map(Act::read)
    }

    fn read(text: &str) -> Act {
        let (letter, rest) = text.split_at(1);
        let [p, c, f, v] = digits(rest);
        let letter = letter.chars().next().expect("a change has a letter");
        Act { letter, p, c, f, v }
    }

    /// The cell and the field as the two digits of a number.
    pub fn number(&self) -> u8 {
        10 * self.c + self.f
    }

    /// Of a place that number is its code, and the value is its stage.
    pub fn place(&self) -> (u8, u8) {
        (self.number(), self.v)
    }
}

/// So many digits. A star is 255, and a point stands where none is used.
pub fn digits<const COUNT: usize>(text: &str) -> [u8; COUNT] {
    let read: Vec<u8> = text.bytes().map(digit).collect();
    read.try_into()
        .unwrap_or_else(|_| panic!("{text:?} has not {COUNT} digits"))
}

fn digit(byte: u8) -> u8 {
    match byte {
        b'*' => 255,
        b'.' => 0,
        b'0'..=b'9' => byte - b'0',
        _ => panic!("{:?} is no digit", char::from(byte)),
    }
}
