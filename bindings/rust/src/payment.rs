//! Payments, as the library writes them into a list.

/// A payment, in cents; texts have spaces at their ends.
#[derive(Clone, Copy, Debug, Default, PartialEq, Eq)]
#[repr(C)]
pub struct Payment {
    /// The serial of its authorization (503-F3) at the payer.
    pub serial: u64,
    /// The prescription (402-D2).
    pub prescription: u64,
    /// The number of the request that reversed it; 0 where it stands.
    pub reversed_number: u64,
    /// The ingredient cost paid (506-F6).
    pub cost: u32,
    /// The dispensing fee paid (507-F7).
    pub fee: u32,
    /// What the patient pays (505-F5).
    pub copay: u32,
    /// What the plan pays (509-F9): cost and fee less the patient's part.
    pub total: u32,
    /// The payer that gave the authorization.
    pub payer: u16,
    /// The pharmacy of the request that reversed it; 0 where it stands.
    pub reversed_pharmacy: u16,
    /// The BIN number (101-A1).
    pub bin: [u8; 6],
    /// The processor control number (104-A4).
    pub pcn: [u8; 10],
    /// The qualifier of the service provider (202-B2).
    pub qualifier: [u8; 2],
    /// The service provider (201-B1).
    pub provider: [u8; 15],
    /// The fill number (403-D3).
    pub fill_number: u8,
}

impl Payment {
    /// The authorization number (503-F3): four digits of the payer, then twelve of the serial.
    pub fn authorization(&self) -> String {
        format!("{:04}{:012}", self.payer, self.serial)
    }

    /// The request that reversed it, by its pharmacy and its number there; none where it stands.
    pub fn reversed_by(&self) -> Option<(u16, u64)> {
        (self.reversed_number > 0).then_some((self.reversed_pharmacy, self.reversed_number))
    }
}
