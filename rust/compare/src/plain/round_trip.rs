//! The way of a plain form back through both libraries.

use super::form::{fields, form, numbers};
use super::{write, Written, UNTOUCHED};
use crate::numbers::Numbers;
use crate::{expected, ours, Case};
use answers::bits::DEFAULT;

/// What is put behind a plain form before it is read back: a library must not care.
const BEHIND: &[u8] = b"A: b\r\n";

/// The bytes, numbers and fields of one round trip, kept so that the next needs no allocation.
#[derive(Default)]
pub struct RoundTrip {
    expected: Vec<u8>,
    written: Vec<u8>,
    again: Vec<u8>,
    back: Numbers,
    ours_back: Numbers,
}

impl RoundTrip {
    /// Writes a complete answer and reads it back; an error says what went wrong first.
    pub fn go(&mut self, case: &Case, answer: &Numbers) -> Result<(), String> {
        self.expected.clear();
        form(case.call, case.input, answer, &mut self.expected);
        let length = self.expected.len();
        let refused = write(case, answer, &mut self.again, length - 1);
        expect("too little room", refused, Written::Needs(length))?;
        expect_untouched(&self.again)?;
        let written = write(case, answer, &mut self.written, length);
        expect("room enough", written, Written::All(length))?;
        if self.written != self.expected {
            return Err(format!(
                "the plain form is {}, and {} was written",
                self.expected.escape_ascii(),
                self.written.escape_ascii()
            ));
        }
        self.written.extend_from_slice(BEHIND);
        self.read_back(case, answer, DEFAULT)?;
        match case.settings {
            DEFAULT => Ok(()),
            settings => self.read_back(case, answer, settings),
        }
    }

    /// Nothing may be written of a complete answer that has no plain form.
    pub fn refuse(&mut self, case: &Case, answer: &Numbers) -> Result<(), String> {
        let refused = write(case, answer, &mut self.again, case.input.len() * 2);
        expect("a folded value", refused, Written::Unwritable)?;
        expect_untouched(&self.again)
    }

    /// With these settings both libraries must find the same fields in what was written, and the same bytes are written of them.
    fn read_back(&mut self, case: &Case, answer: &Numbers, settings: u32) -> Result<(), String> {
        let length = self.expected.len();
        let plain = Case {
            call: case.call,
            slots: answer.out.numbers()[1] as usize,
            remainder: 0,
            settings,
            input: &self.written,
        };
        self.back.lend(plain.room());
        expected::read(&plain, &mut self.back);
        let end = self.back.out.numbers()[0] as usize;
        expect("httparse's status", self.back.status, 0)?;
        expect("httparse's end", end, length)?;
        let before = fields(case.call, case.input, answer);
        let after = fields(case.call, &self.written, &self.back);
        if !before.eq(after) || numbers(case.call, answer) != numbers(case.call, &self.back) {
            return Err(format!(
                "httparse finds other fields in {}",
                self.written.escape_ascii()
            ));
        }
        self.ours_back.lend(plain.room());
        ours::read(&plain, &mut self.ours_back);
        if self.ours_back != self.back {
            return Err(format!(
                "Headreader does not read {} as httparse does",
                self.written.escape_ascii()
            ));
        }
        let again = write(&plain, &self.ours_back, &mut self.again, length);
        expect("writing again", again, Written::All(length))?;
        match self.again == self.written[..length] {
            true => Ok(()),
            false => Err("written again, the bytes are others".to_string()),
        }
    }
}

fn expect<Found>(what: &str, found: Found, expected: Found) -> Result<(), String>
where
    Found: std::fmt::Debug + PartialEq,
{
    match found == expected {
        true => Ok(()),
        false => Err(format!("{what}: {found:?} instead of {expected:?}")),
    }
}

fn expect_untouched(bytes: &[u8]) -> Result<(), String> {
    match bytes.iter().all(|&byte| byte == UNTOUCHED) {
        true => Ok(()),
        false => Err(format!("bytes were written: {}", bytes.escape_ascii())),
    }
}
#[cfg(test)]
mod tests {
    use super::*;
    use crate::numbers::SLOT;
    use answers::Call;

    const INPUT: &[u8] = b"GET / HTTP/1.1\nA: b c \n\n";

    /// The answer on INPUT: a method and a target, a version, and one header.
    fn answer() -> Numbers {
        let mut answer = Numbers::default();
        answer.lend(SLOT);
        answer.status = 0;
        let out = [24, 1, 7, 0, 3, 4, 1, 1];
        answer.out.numbers_mut().copy_from_slice(&out);
        answer.slots.numbers_mut().copy_from_slice(&[15, 1, 18, 3]);
        answer
    }

    fn go(call: Call, answer: &Numbers) -> Result<(), String> {
        let case = Case {
            call,
            slots: 1,
            remainder: 0,
            settings: DEFAULT,
            input: INPUT,
        };
        RoundTrip::default().go(&case, answer)
    }

    #[test]
    fn a_head_comes_back() {
        assert_eq!(go(Call::Request, &answer()), Ok(()));
        assert_eq!(go(Call::Headers, &answer()), Ok(()));
    }

    #[test]
    fn the_form_as_its_definition_says() {
        let mut plain = Vec::new();
        form(Call::Request, INPUT, &answer(), &mut plain);
        assert_eq!(plain, b"GET / HTTP/1.1\r\nA: b c\r\n\r\n");
        let mut response = answer();
        response.out.numbers_mut()[2..].copy_from_slice(&[28, 0, 7, 18, 3, 0]);
        plain.clear();
        form(Call::Response, INPUT, &response, &mut plain);
        assert_eq!(plain, b"HTTP/1.0 007 b c\r\nA: b c\r\n\r\n");
    }

    /// Fields that no library gives, each of which comes back as something else.
    #[test]
    fn fields_that_do_not_come_back_are_noticed() {
        for (wrong, place) in [
            ("finds other fields", [15, 1, 18, 4]),
            ("finds other fields", [15, 1, 17, 4]),
            ("finds other fields", [15, 2, 18, 3]),
            ("httparse's status", [15, 0, 18, 3]),
            ("httparse's end", [15, 1, 22, 2]),
            ("httparse's end", [15, 1, 18, 6]),
        ] {
            let mut answer = answer();
            answer.slots.numbers_mut().copy_from_slice(&place);
            let found = go(Call::Headers, &answer).expect_err("the fields came back");
            assert!(found.contains(wrong), "{place:?}: {found}");
        }
    }

    #[test]
    fn an_answer_that_is_not_complete_is_not_written() {
        let mut incomplete = answer();
        incomplete.status = 1;
        let found = go(Call::Request, &incomplete).expect_err("it was written");
        assert!(found.contains("Unwritable instead of Needs"), "{found}");
    }

    #[test]
    fn bytes_that_were_written_are_noticed() {
        assert_eq!(expect_untouched(&[UNTOUCHED; 3]), Ok(()));
        assert!(expect_untouched(&[UNTOUCHED, 0]).is_err());
    }
}
