//! RFC 8941 dictionaries (section 4.2), on bytes.

use crate::limits::{MAX_FRACTION_DIGITS, MAX_INTEGER_DIGITS, MAX_WHOLE_DIGITS};

/// The text is no dictionary.
#[derive(Clone, Copy, Debug, PartialEq, Eq)]
pub struct Malformed;

#[derive(Clone, Debug, PartialEq, Eq)]
pub enum BareItem {
    Integer(i64),
    /// In thousandths.
    Decimal(i64),
    String(Vec<u8>),
    Token(Vec<u8>),
    /// As written between the colons: only the alphabet is checked.
    ByteSequence(Vec<u8>),
    Boolean(bool),
}

#[derive(Clone, Debug, PartialEq, Eq)]
pub struct Parameter {
    pub key: Vec<u8>,
    pub value: BareItem,
}

#[derive(Clone, Debug, PartialEq, Eq)]
pub struct Item {
    pub value: BareItem,
    pub parameters: Vec<Parameter>,
}

#[derive(Clone, Debug, PartialEq, Eq)]
pub enum MemberValue {
    Item(BareItem),
    InnerList(Vec<Item>),
}

#[derive(Clone, Debug, PartialEq, Eq)]
pub struct Member {
    pub key: Vec<u8>,
    pub value: MemberValue,
    pub parameters: Vec<Parameter>,
}

/// The members, each key once.
pub type Dictionary = Vec<Member>;

/// 4.2: "Drop leading SP (SP alone, no HTAB). Read a dictionary. Drop SP. The
/// text must now be at its end."
pub fn parse_dictionary(text: &[u8]) -> Result<Dictionary, Malformed> {
    let mut reader = Reader { rest: text };
    reader.skip_spaces();
    let dictionary = reader.dictionary()?;
    reader.skip_spaces();
    if reader.at_end() {
        Ok(dictionary)
    } else {
        Err(Malformed)
    }
}

/// What is left to read.
struct Reader<'a> {
    rest: &'a [u8],
}

impl Reader<'_> {
    fn at_end(&self) -> bool {
        self.rest.is_empty()
    }

    fn peek(&self) -> Option<u8> {
        self.rest.first().copied()
    }

    fn next(&mut self) -> Option<u8> {
        let (&byte, rest) = self.rest.split_first()?;
        self.rest = rest;
        Some(byte)
    }

    /// Takes the byte if it is next.
    fn take(&mut self, byte: u8) -> bool {
        let found = self.peek() == Some(byte);
        if found {
            self.rest = &self.rest[1..];
        }
        found
    }

    fn expect(&mut self, byte: u8) -> Result<(), Malformed> {
        if self.take(byte) {
            Ok(())
        } else {
            Err(Malformed)
        }
    }

    /// Takes the longest run of such bytes.
    fn take_while(&mut self, wanted: fn(u8) -> bool) -> &[u8] {
        let length = self
            .rest
            .iter()
            .position(|&b| !wanted(b))
            .unwrap_or(self.rest.len());
        let (run, rest) = self.rest.split_at(length);
        self.rest = rest;
        run
    }

    /// Drops SP.
    fn skip_spaces(&mut self) {
        self.take_while(|b| b == b' ');
    }

    /// Drops OWS: SP and HTAB.
    fn skip_optional_whitespace(&mut self) {
        self.take_while(|b| b == b' ' || b == b'\t');
    }

    /// 4.2.2
    fn dictionary(&mut self) -> Result<Dictionary, Malformed> {
        let mut members = Dictionary::new();
        while !self.at_end() {
            let member = self.member()?;
            // "A key seen before: the later value replaces the earlier."
            match members.iter_mut().find(|m| m.key == member.key) {
                Some(earlier) => *earlier = member,
                None => members.push(member),
            }
            self.skip_optional_whitespace();
            if self.at_end() {
                break;
            }
            self.expect(b',')?;
            self.skip_optional_whitespace();
            // "being at the end now fails (trailing comma)"
            if self.at_end() {
                return Err(Malformed);
            }
        }
        Ok(members)
    }

    fn member(&mut self) -> Result<Member, Malformed> {
        let key = self.key()?;
        let value = if !self.take(b'=') {
            MemberValue::Item(BareItem::Boolean(true))
        } else if self.peek() == Some(b'(') {
            MemberValue::InnerList(self.inner_list_items()?)
        } else {
            MemberValue::Item(self.bare_item()?)
        };
        let parameters = self.parameters()?;
        Ok(Member {
            key,
            value,
            parameters,
        })
    }

    /// 4.2.1.2, without the parameters after `)`.
    fn inner_list_items(&mut self) -> Result<Vec<Item>, Malformed> {
        self.expect(b'(')?;
        let mut items = Vec::new();
        loop {
            self.skip_spaces();
            if self.take(b')') {
                return Ok(items);
            }
            items.push(self.item()?);
            // "an item, after which the next byte must be SP or `)`"
            if !matches!(self.peek(), Some(b' ' | b')')) {
                return Err(Malformed);
            }
        }
    }

    /// 4.2.3: "A bare item, then parameters."
    fn item(&mut self) -> Result<Item, Malformed> {
        let value = self.bare_item()?;
        let parameters = self.parameters()?;
        Ok(Item { value, parameters })
    }

    /// 4.2.3.1
    fn bare_item(&mut self) -> Result<BareItem, Malformed> {
        match self.peek() {
            Some(b'-' | b'0'..=b'9') => self.number(),
            Some(b'"') => self.string(),
            Some(b':') => self.byte_sequence(),
            Some(b'?') => self.boolean(),
            Some(b'a'..=b'z' | b'A'..=b'Z' | b'*') => Ok(self.token()),
            _ => Err(Malformed),
        }
    }

    /// 4.2.3.2
    fn parameters(&mut self) -> Result<Vec<Parameter>, Malformed> {
        let mut parameters: Vec<Parameter> = Vec::new();
        while self.take(b';') {
            self.skip_spaces();
            let key = self.key()?;
            let value = if self.take(b'=') {
                self.bare_item()?
            } else {
                BareItem::Boolean(true)
            };
            match parameters.iter_mut().find(|p| p.key == key) {
                Some(earlier) => earlier.value = value,
                None => parameters.push(Parameter { key, value }),
            }
        }
        Ok(parameters)
    }

    /// 4.2.3.3
    fn key(&mut self) -> Result<Vec<u8>, Malformed> {
        match self.peek() {
            Some(b'a'..=b'z' | b'*') => Ok(self.take_while(is_key_byte).to_vec()),
            _ => Err(Malformed),
        }
    }

    /// 4.2.4
    fn number(&mut self) -> Result<BareItem, Malformed> {
        let sign = if self.take(b'-') { -1 } else { 1 };
        let whole = self.take_while(|b| b.is_ascii_digit()).to_vec();
        if whole.is_empty() {
            return Err(Malformed);
        }
        if !self.take(b'.') {
            if whole.len() > MAX_INTEGER_DIGITS {
                return Err(Malformed);
            }
            return Ok(BareItem::Integer(sign * decimal_value(&whole)));
        }
        if whole.len() > MAX_WHOLE_DIGITS {
            return Err(Malformed);
        }
        let mut fraction = self.take_while(|b| b.is_ascii_digit()).to_vec();
        if fraction.is_empty() || fraction.len() > MAX_FRACTION_DIGITS {
            return Err(Malformed);
        }
        fraction.resize(MAX_FRACTION_DIGITS, b'0');
        let thousandths = decimal_value(&whole) * 1000 + decimal_value(&fraction);
        Ok(BareItem::Decimal(sign * thousandths))
    }

    /// 4.2.5: "bytes 0x20 to 0x7e, where a `\` must be followed by `"` or `\`,
    /// up to an unescaped `"`"
    fn string(&mut self) -> Result<BareItem, Malformed> {
        self.expect(b'"')?;
        let mut content = Vec::new();
        loop {
            match self.next() {
                Some(b'"') => return Ok(BareItem::String(content)),
                Some(b'\\') => match self.next() {
                    Some(escaped @ (b'"' | b'\\')) => content.push(escaped),
                    _ => return Err(Malformed),
                },
                Some(byte @ 0x20..=0x7e) => content.push(byte),
                _ => return Err(Malformed),
            }
        }
    }

    /// 4.2.6; the first byte is known to be good.
    fn token(&mut self) -> BareItem {
        BareItem::Token(self.take_while(is_token_byte).to_vec())
    }

    /// 4.2.7
    fn byte_sequence(&mut self) -> Result<BareItem, Malformed> {
        self.expect(b':')?;
        let content = self.take_while(is_base64_byte).to_vec();
        self.expect(b':')?;
        Ok(BareItem::ByteSequence(content))
    }

    /// 4.2.8
    fn boolean(&mut self) -> Result<BareItem, Malformed> {
        self.expect(b'?')?;
        match self.next() {
            Some(b'0') => Ok(BareItem::Boolean(false)),
            Some(b'1') => Ok(BareItem::Boolean(true)),
            _ => Err(Malformed),
        }
    }
}

fn is_key_byte(b: u8) -> bool {
    b.is_ascii_lowercase() || b.is_ascii_digit() || b"_-.*".contains(&b)
}

fn is_token_byte(b: u8) -> bool {
    b.is_ascii_alphanumeric() || b"!#$%&'*+-.^_`|~:/".contains(&b)
}

fn is_base64_byte(b: u8) -> bool {
    b.is_ascii_alphanumeric() || b"+/=".contains(&b)
}

/// At most 15 digits: far below the largest i64.
fn decimal_value(digits: &[u8]) -> i64 {
    digits
        .iter()
        .fold(0, |value, &b| value * 10 + i64::from(b - b'0'))
}

#[cfg(test)]
mod tests {
    use super::*;

    fn is_good(text: &[u8]) -> bool {
        parse_dictionary(text).is_ok()
    }

    #[test]
    fn good_texts() {
        let good: [&[u8]; 9] = [
            b"a",
            b"a;x;y=1",
            b"a=(1 2.5 \"x\" tok :YQ==: ?1);p=x",
            b"a=1 ,\tb=2",
            b"  a  ",
            b"a=-0",
            b"a=()",
            b"a=( )",
            b"*k=*",
        ];
        for text in good {
            assert!(is_good(text), "{}", String::from_utf8_lossy(text));
        }
    }

    #[test]
    fn bad_texts() {
        let bad: [&[u8]; 28] = [
            b"A",
            b"a =1",
            b"a= 1",
            b"a,",
            b",a",
            b"a=1,,b",
            b"a=(1",
            b"a=(1,2)",
            b"a=1 ;x",
            b"a=1;X",
            b"a=1;x=(2)",
            "a=\"é\"".as_bytes(),
            b"a=\"\n\"",
            b"a=\"\\n\"",
            b"a=\"\\x\"",
            b"a='b'",
            b"a=1.",
            b"a=1.1234",
            b"a=1234567890123456",
            b"a=1234567890123.1",
            b"a=:*:",
            b"a=:YQ==",
            b"a=?2",
            b"\ta",
            b"a b",
            b"a=-",
            b"a=.5",
            b"a=+1",
        ];
        for text in bad {
            assert!(!is_good(text), "{}", String::from_utf8_lossy(text));
        }
    }

    #[test]
    fn further_texts() {
        let good: [&[u8]; 12] = [
            b"",
            b"   ",
            b"a\t",
            b"a=( a  b )",
            b"a=::",
            b"a=123456789012345",
            b"a=123456789012.123",
            b"a=-007",
            b"a=\"\\\"\\\\\"",
            b"a;  x",
            b"a=T:/!#$%&'*+-.^_`|~",
            b"a=1;x=?0;x=\"\"",
        ];
        for text in good {
            assert!(is_good(text), "{}", String::from_utf8_lossy(text));
        }
        let bad: [&[u8]; 14] = [
            b"\t",
            b" \t",
            b"a=(1\t2)",
            b"a=(\"a\"\"b\")",
            b"a=",
            b"a=\"",
            b"a=\"\\",
            b"a=\"\x7f\"",
            b"a=1.1.1",
            b"a=--1",
            b"a;\tx",
            b"a;",
            b"a=((1))",
            b"a=?",
        ];
        for text in bad {
            assert!(!is_good(text), "{}", String::from_utf8_lossy(text));
        }
    }

    #[test]
    fn the_later_value_replaces_the_earlier() {
        let members = parse_dictionary(b"a=1, b=2.5, a=x;p;p=3").expect("a dictionary");
        assert_eq!(members.len(), 2);
        assert_eq!(
            members[0].value,
            MemberValue::Item(BareItem::Token(b"x".to_vec()))
        );
        assert_eq!(members[0].parameters.len(), 1);
        assert_eq!(members[0].parameters[0].value, BareItem::Integer(3));
        assert_eq!(members[1].value, MemberValue::Item(BareItem::Decimal(2500)));
    }
}
