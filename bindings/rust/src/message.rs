//! Billings and reversals from their fields.

use crate::error::{Code, Error};
use crate::sys::{self, RawBilling, RawHeader, RawReversal, NO_FILL};
use std::fmt;

/// A field with which no message is made.
#[derive(Clone, Copy, Debug, PartialEq, Eq)]
pub struct WrongField {
    /// Its number: 302 of the cardholder ID (302-C2).
    pub number: u32,
    /// Why: one of the codes of fields.
    pub code: Code,
}

/// Why a message was not made.
#[derive(Clone, Copy, Debug, PartialEq, Eq)]
pub enum MakingError {
    /// A field is wrong, and none before it in the message.
    Field(WrongField),
    /// Memory was refused.
    Library(Error),
}

/// The header of a request. Texts may be of any bytes but separators; spaces behind them are the library's.
#[derive(Clone, Debug, PartialEq, Eq)]
pub struct Header {
    bin: Vec<u8>,
    pcn: Vec<u8>,
    qualifier: Vec<u8>,
    provider: Vec<u8>,
    date: Vec<u8>,
    vendor: Vec<u8>,
}

/// A billing (B1) of one transaction.
#[derive(Clone, Debug, PartialEq, Eq)]
pub struct Billing {
    header: Header,
    cardholder: Vec<u8>,
    prescription: u64,
    product: Vec<u8>,
    quantity: u64,
    cost: u32,
    fee: u32,
    fill_number: u8,
}

/// A reversal (B2) of one transaction: the header, the prescription and the fill of its billing name what is reversed.
#[derive(Clone, Debug, PartialEq, Eq)]
pub struct Reversal {
    header: Header,
    prescription: u64,
    product: Vec<u8>,
    fill_number: Option<u8>,
}

impl Header {
    /// The header of a BIN number (101-A1, six digits), a service provider (201-B1, at most 15 bytes) with the qualifier 01, and a
    /// date of service (401-D1, CCYYMMDD).
    pub fn new(bin: impl AsRef<[u8]>, provider: impl AsRef<[u8]>, date: impl AsRef<[u8]>) -> Header {
        Header {
            bin: bin.as_ref().to_vec(),
            pcn: Vec::new(),
            qualifier: b"01".to_vec(),
            provider: provider.as_ref().to_vec(),
            date: date.as_ref().to_vec(),
            vendor: Vec::new(),
        }
    }

    /// With this processor control number (104-A4, at most 10 bytes).
    pub fn pcn(mut self, pcn: impl AsRef<[u8]>) -> Header {
        self.pcn = pcn.as_ref().to_vec();
        self
    }

    /// With this qualifier of the service provider (202-B2, at most 2 bytes).
    pub fn qualifier(mut self, qualifier: impl AsRef<[u8]>) -> Header {
        self.qualifier = qualifier.as_ref().to_vec();
        self
    }

    /// With this software vendor and certification ID (110-AK, at most 10 bytes).
    pub fn vendor(mut self, vendor: impl AsRef<[u8]>) -> Header {
        self.vendor = vendor.as_ref().to_vec();
        self
    }

    fn raw(&self) -> Result<RawHeader, MakingError> {
        Ok(RawHeader {
            bin: text(101, &self.bin)?,
            pcn: text(104, &self.pcn)?,
            qualifier: text(202, &self.qualifier)?,
            provider: text(201, &self.provider)?,
            date: text(401, &self.date)?,
            vendor: text(110, &self.vendor)?,
        })
    }
}

impl Billing {
    /// The billing of fill 0 of a prescription (402-D2, at most 12 digits) for a cardholder (302-C2, 1 to 20 bytes): a quantity
    /// (442-E7, in thousandths of a unit) of a product (407-D7, 1 to 19 bytes), for an ingredient cost (409-D9, in cents).
    pub fn new(
        header: Header,
        cardholder: impl AsRef<[u8]>,
        prescription: u64,
        product: impl AsRef<[u8]>,
        quantity: u64,
        cost: u32,
    ) -> Billing {
        let (cardholder, product) = (cardholder.as_ref().to_vec(), product.as_ref().to_vec());
        Billing { header, cardholder, prescription, product, quantity, cost, fee: 0, fill_number: 0 }
    }

    /// With this dispensing fee (412-DC), in cents.
    pub fn fee(mut self, cents: u32) -> Billing {
        self.fee = cents;
        self
    }

    /// With this fill number (403-D3), at most 99.
    pub fn fill_number(mut self, number: u8) -> Billing {
        self.fill_number = number;
        self
    }

    /// The reversal of this billing, of the same day.
    pub fn reversal(&self) -> Reversal {
        Reversal {
            header: self.header.clone(),
            prescription: self.prescription,
            product: self.product.clone(),
            fill_number: Some(self.fill_number),
        }
    }

    /// The message, as a pharmacy submits it.
    ///
    /// # Errors
    /// The first wrong field, in the order of the message.
    pub fn to_bytes(&self) -> Result<Vec<u8>, MakingError> {
        let fields = RawBilling {
            prescription: self.prescription,
            quantity: self.quantity,
            cost: self.cost,
            fee: self.fee,
            header: self.header.raw()?,
            cardholder: text(302, &self.cardholder)?,
            product: text(407, &self.product)?,
            fill_number: self.fill_number,
        };
        // SAFETY: the fields are lent whole, and `made` lends as many bytes as it says.
        made(|at, room, size, field| unsafe { sys::vogrilas_make_billing(&fields, at, room, size, field) })
    }
}

impl Reversal {
    /// The reversal of fill 0 of a prescription.
    pub fn new(header: Header, prescription: u64, product: impl AsRef<[u8]>) -> Reversal {
        Reversal { header, prescription, product: product.as_ref().to_vec(), fill_number: Some(0) }
    }

    /// With this fill number (403-D3), or none.
    pub fn fill_number(mut self, number: Option<u8>) -> Reversal {
        self.fill_number = number;
        self
    }

    /// The message, as a pharmacy submits it.
    ///
    /// # Errors
    /// The first wrong field, in the order of the message.
    pub fn to_bytes(&self) -> Result<Vec<u8>, MakingError> {
        let fields = RawReversal {
            prescription: self.prescription,
            header: self.header.raw()?,
            product: text(407, &self.product)?,
            // The number that leaves it out is too long like its neighbour.
            fill_number: self.fill_number.map_or(NO_FILL, |number| number.min(NO_FILL - 1)),
        };
        // SAFETY: the fields are lent whole, and `made` lends as many bytes as it says.
        made(|at, room, size, field| unsafe { sys::vogrilas_make_reversal(&fields, at, room, size, field) })
    }
}

/// A text in its array; of one that is too long so much that the library finds it too long.
fn text<const N: usize>(number: u32, given: &[u8]) -> Result<[u8; N], MakingError> {
    if given.contains(&0) {
        return Err(MakingError::Field(WrongField { number, code: Code::FieldSeparator }));
    }
    let mut array = [0; N];
    let size = given.len().min(N);
    array[..size].copy_from_slice(&given[..size]);
    Ok(array)
}

/// The message that a call copies into a buffer, which grows once where it is too short.
fn made(mut call: impl FnMut(*mut u8, usize, &mut usize, &mut u32) -> u32) -> Result<Vec<u8>, MakingError> {
    let mut number = 0;
    let bytes = crate::copied(512, |at, room, size| call(at, room, size, &mut number));
    bytes.map_err(|error| match error.code {
        code @ (Code::FieldEmpty
        | Code::FieldTooLong
        | Code::FieldSeparator
        | Code::FieldSpace
        | Code::FieldDigits
        | Code::FieldDay) => MakingError::Field(WrongField { number, code }),
        _ => MakingError::Library(error),
    })
}

impl fmt::Display for WrongField {
    fn fmt(&self, to: &mut fmt::Formatter<'_>) -> fmt::Result {
        let error = Error { code: self.code, place: None, log: None };
        write!(to, "field {}: {error}", self.number)
    }
}

impl fmt::Display for MakingError {
    fn fmt(&self, to: &mut fmt::Formatter<'_>) -> fmt::Result {
        match self {
            MakingError::Field(wrong) => wrong.fmt(to),
            MakingError::Library(error) => error.fmt(to),
        }
    }
}

impl std::error::Error for WrongField {}
impl std::error::Error for MakingError {}
