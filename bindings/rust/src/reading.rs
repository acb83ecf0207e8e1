//! Messages read into the types that they are made of, and what answers rule.

use crate::error::Error;
use crate::message::{Billing, Header, MakingError, Reversal};
use crate::{described, Style};
use std::fmt;

/// Why a message was not read.
#[derive(Clone, Copy, Debug, PartialEq, Eq)]
pub enum ReadError {
    /// It is no message of this kind: no billing or reversal of one transaction, or no answer.
    OtherKind,
    /// It is one, in other bytes than this library makes of its fields: [`described`] tells it.
    OtherBytes,
    /// Memory was refused.
    Library(Error),
}

/// What is paid: amounts in cents.
#[derive(Clone, Debug, PartialEq, Eq)]
pub struct Paid {
    /// The authorization number (503-F3): four digits of the payer and twelve of its serial.
    pub authorization: String,
    /// The prescription (402-D2).
    pub prescription: u64,
    /// The ingredient cost paid (506-F6).
    pub cost: u64,
    /// The dispensing fee paid (507-F7).
    pub fee: u64,
    /// What the patient pays (505-F5).
    pub copay: u64,
    /// The total paid (509-F9): of what a plan pays cost and fee, less the copay.
    pub total: u64,
}

/// What an answer rules of a transaction.
#[derive(Clone, Debug, PartialEq, Eq)]
pub enum Ruling {
    /// Paid (`P`).
    Paid(Paid),
    /// Paid before, and not again (`D`).
    Duplicate(Paid),
    /// The payment is taken back (`A`).
    Reversed {
        /// That of the payment.
        authorization: String,
        /// The prescription (402-D2).
        prescription: u64,
    },
    /// Rejected (`R`), with one to five codes (511-FB).
    Rejected {
        /// The codes, as `70`.
        codes: Vec<String>,
    },
}

/// An answer of a payer, or of a switch that has no route.
#[derive(Clone, Debug, PartialEq, Eq)]
pub struct Answer {
    /// What it rules, of each transaction in turn.
    pub rulings: Vec<Ruling>,
}

impl Answer {
    /// What an answer rules, as `claimdecode` reads it.
    ///
    /// # Errors
    /// `OtherKind` where it is none; `Library`.
    pub fn read(message: &[u8]) -> Result<Answer, ReadError> {
        if !message.starts_with(b"D0") {
            return Err(ReadError::OtherKind);
        }
        let told = described(message, Style::Json).map_err(ReadError::Library)?;
        let told = String::from_utf8_lossy(&told).into_owned();
        // A quotation mark in a text stands behind a backslash, so this is the member and no text.
        let (_, findings) = told.split_once("\"findings\":[").ok_or(ReadError::OtherKind)?;
        let rulings: Option<Vec<Ruling>> = findings_of(findings).iter().map(|one| one.ruling()).collect();
        match rulings {
            Some(rulings) if !rulings.is_empty() => Ok(Answer { rulings }),
            _ => Err(ReadError::OtherKind),
        }
    }
}

impl Billing {
    /// The billing of one transaction whose bytes these are: made again of its fields it is this message.
    ///
    /// # Errors
    /// `OtherKind` where a field is not there or none of its kind; `OtherBytes`; `Library`.
    pub fn read(message: &[u8]) -> Result<Billing, ReadError> {
        let fields = Fields::of(message, b"B1").ok_or(ReadError::OtherKind)?;
        let billing = fields.billing().ok_or(ReadError::OtherKind)?;
        same(billing.to_bytes(), message)?;
        Ok(billing)
    }
}

impl Reversal {
    /// The reversal of one transaction whose bytes these are: made again of its fields it is this message.
    ///
    /// # Errors
    /// `OtherKind` where a field is not there or none of its kind; `OtherBytes`; `Library`.
    pub fn read(message: &[u8]) -> Result<Reversal, ReadError> {
        let fields = Fields::of(message, b"B2").ok_or(ReadError::OtherKind)?;
        let reversal = fields.reversal().ok_or(ReadError::OtherKind)?;
        same(reversal.to_bytes(), message)?;
        Ok(reversal)
    }
}

/// Sees whether the library makes a message again: so nothing that is read of it is otherwise than the library says.
fn same(made: Result<Vec<u8>, MakingError>, message: &[u8]) -> Result<(), ReadError> {
    match made {
        Ok(bytes) if bytes == message => Ok(()),
        Ok(_) | Err(MakingError::Field(_)) => Err(ReadError::OtherBytes),
        Err(MakingError::Library(error)) => Err(ReadError::Library(error)),
    }
}

/// The fields of a request, where they would stand.
struct Fields<'a> {
    header: Header,
    behind: Vec<&'a [u8]>,
}

impl<'a> Fields<'a> {
    fn of(message: &'a [u8], code: &[u8]) -> Option<Fields<'a>> {
        if message.get(8..10)? != code || message.len() < 56 {
            return None;
        }
        let header = Header::new(&message[..6], filled(&message[23..38]), &message[38..46])
            .pcn(filled(&message[10..20]))
            .qualifier(filled(&message[21..23]))
            .vendor(filled(&message[46..56]));
        let behind = message[56..].split(|byte| matches!(byte, 0x1c..=0x1e)).collect();
        Some(Fields { header, behind })
    }

    /// The value behind the two bytes that name a field; None where there is none, or more than one.
    fn one(&self, id: &[u8; 2]) -> Option<&'a [u8]> {
        let mut found = self.behind.iter().filter_map(|field| field.strip_prefix(id.as_slice()));
        let value = found.next();
        if found.next().is_some() { None } else { value }
    }

    fn number<N: std::str::FromStr>(&self, id: &[u8; 2]) -> Option<N> {
        std::str::from_utf8(self.one(id)?).ok()?.parse().ok()
    }

    /// Cents: digits, and in the place of the last one a sign with it.
    fn cents(&self, id: &[u8; 2]) -> Option<u32> {
        let (last, front) = self.one(id)?.split_last()?;
        let digit = b"{ABCDEFGHI".iter().position(|letter| letter == last)?;
        let tens: u32 = if front.is_empty() { 0 } else { std::str::from_utf8(front).ok()?.parse().ok()? };
        tens.checked_mul(10)?.checked_add(digit as u32)
    }

    fn billing(&self) -> Option<Billing> {
        let billing = Billing::new(
            self.header.clone(),
            self.one(b"C2")?,
            self.number(b"D2")?,
            self.one(b"D7")?,
            self.number(b"E7")?,
            self.cents(b"D9")?,
        );
        Some(billing.fee(self.cents(b"DC")?).fill_number(self.number(b"D3")?))
    }

    fn reversal(&self) -> Option<Reversal> {
        let fill = match self.one(b"D3") {
            Some(_) => Some(self.number(b"D3")?),
            None => None,
        };
        Some(Reversal::new(self.header.clone(), self.number(b"D2")?, self.one(b"D7")?).fill_number(fill))
    }
}

/// A text without the spaces with which its field is filled.
fn filled(field: &[u8]) -> &[u8] {
    let size = field.iter().rposition(|byte| *byte != b' ').map_or(0, |place| place + 1);
    &field[..size]
}

/// One finding of a description: members whose values are texts or numbers, in order.
struct Finding(Vec<(String, String)>);

impl Finding {
    fn text(&self, key: &str) -> Option<&str> {
        self.0.iter().find(|(name, _)| name == key).map(|(_, value)| value.as_str())
    }

    fn number(&self, key: &str) -> Option<u64> {
        self.text(key)?.parse().ok()
    }

    fn paid(&self) -> Option<Paid> {
        Some(Paid {
            authorization: self.text("authorization")?.to_owned(),
            prescription: self.number("prescription")?,
            cost: self.number("cost")?,
            fee: self.number("fee")?,
            copay: self.number("copay")?,
            total: self.number("total")?,
        })
    }

    fn ruling(&self) -> Option<Ruling> {
        match self.text("ruling")? {
            "paid" => Some(Ruling::Paid(self.paid()?)),
            "duplicate" => Some(Ruling::Duplicate(self.paid()?)),
            "reversed" => Some(Ruling::Reversed {
                authorization: self.text("authorization")?.to_owned(),
                prescription: self.number("prescription")?,
            }),
            "rejected" => {
                Some(Ruling::Rejected { codes: self.text("codes")?.split(' ').map(str::to_owned).collect() })
            }
            _ => None,
        }
    }
}

/// The findings of a list of them, each an object of texts and numbers, up to its end.
fn findings_of(text: &str) -> Vec<Finding> {
    let mut found = Vec::new();
    let mut members = Vec::new();
    let mut key = None;
    let mut letters = text.chars().peekable();
    while let Some(letter) = letters.next() {
        let value = match letter {
            ']' => break,
            '}' => {
                found.push(Finding(std::mem::take(&mut members)));
                continue;
            }
            '"' => quoted(&mut letters),
            '0'..='9' => {
                let mut digits = String::from(letter);
                while let Some(digit) = letters.next_if(char::is_ascii_digit) {
                    digits.push(digit);
                }
                digits
            }
            _ => continue,
        };
        match key.take() {
            Some(name) => members.push((name, value)),
            None => key = Some(value),
        }
    }
    found
}

/// The letters up to the quotation mark that ends a text.
fn quoted(letters: &mut impl Iterator<Item = char>) -> String {
    let mut text = String::new();
    while let Some(letter) = letters.next() {
        match letter {
            '"' => break,
            '\\' => text.extend(letters.next()),
            _ => text.push(letter),
        }
    }
    text
}

impl fmt::Display for ReadError {
    fn fmt(&self, to: &mut fmt::Formatter<'_>) -> fmt::Result {
        match self {
            ReadError::OtherKind => to.write_str("no message of this kind"),
            ReadError::OtherBytes => to.write_str("the same order in other bytes than this library makes"),
            ReadError::Library(error) => error.fmt(to),
        }
    }
}

impl std::error::Error for ReadError {}
