//! Trials of messages that are made of fields: the request of examples/embed, and each field wrong in turn.

use vogrilas::{unprinted, Answer, Billing, Code, Header, MakingError, Paid, ReadError, Reversal, Ruling, WrongField};

const REQUEST: &[u8] = include_bytes!("../../../examples/embed/request");

fn header() -> Header {
    Header::new("610455", "1234567893", "20240115").pcn("A1").vendor("SW00000001")
}

fn billing() -> Billing {
    Billing::new(header(), "987654321", 123456, "00093721410", 30_000, 6_000).fee(200)
}

fn wrong(number: u32, code: Code) -> Result<Vec<u8>, MakingError> {
    Err(MakingError::Field(WrongField { number, code }))
}

#[test]
fn messages_are_made() {
    let request = unprinted(REQUEST.strip_suffix(b"\n").unwrap()).unwrap();
    assert_eq!(billing().to_bytes().unwrap(), request);
    let reversal = [&request[..8], b"B2", &request[10..56], b"\x1d\x1e\x1cAM07\x1cEM1\x1cD2123456\x1cD30\x1cE103\x1cD700093721410"].concat();
    assert_eq!(billing().reversal().to_bytes().unwrap(), reversal);
    assert_eq!(Reversal::new(header(), 123456, "00093721410").to_bytes().unwrap(), reversal);
    let without = Reversal::new(header(), 123456, "00093721410").fill_number(None).to_bytes().unwrap();
    assert_eq!(without.len(), reversal.len() - 4);
}

#[test]
fn wrong_fields_are_named() {
    let with = |header: Header| Billing::new(header, "1", 1, "1", 0, 0).to_bytes();
    assert!(with(header().pcn("ABCDEFGHIJ").vendor("ABCDEFGHIJ").qualifier("")).is_ok());
    assert_eq!(with(Header::new("61045", "1", "20240115")), wrong(101, Code::FieldDigits));
    assert_eq!(with(Header::new("6104551", "1", "20240115")), wrong(101, Code::FieldDigits));
    assert_eq!(with(header().pcn("ABCDEFGHIJKLM")), wrong(104, Code::FieldTooLong));
    assert_eq!(with(header().qualifier("012")), wrong(202, Code::FieldTooLong));
    assert_eq!(with(Header::new("610455", "1\x1d", "20240115")), wrong(201, Code::FieldSeparator));
    assert_eq!(with(Header::new("610455", "1", "20240230")), wrong(401, Code::FieldDay));
    assert_eq!(with(header().vendor("1\0")), wrong(110, Code::FieldSeparator));
    assert_eq!(Billing::new(header(), "", 1, "1", 0, 0).to_bytes(), wrong(302, Code::FieldEmpty));
    assert_eq!(Billing::new(header(), "1 ", 1, "1", 0, 0).to_bytes(), wrong(302, Code::FieldSpace));
    assert_eq!(Billing::new(header(), "1", 1_000_000_000_000, "1", 0, 0).to_bytes(), wrong(402, Code::FieldTooLong));
    assert_eq!(billing().fill_number(100).to_bytes(), wrong(403, Code::FieldTooLong));
    assert_eq!(Billing::new(header(), "1", 1, [b'1'; 40], 0, 0).to_bytes(), wrong(407, Code::FieldTooLong));
    assert_eq!(Billing::new(header(), "1", 1, "1", u64::MAX, 0).to_bytes(), wrong(442, Code::FieldTooLong));
    assert_eq!(Billing::new(header(), "1", 1, "1", 0, 100_000_000).to_bytes(), wrong(409, Code::FieldTooLong));
    assert_eq!(billing().fee(u32::MAX).to_bytes(), wrong(412, Code::FieldTooLong));
    assert_eq!(billing().reversal().fill_number(Some(255)).to_bytes(), wrong(403, Code::FieldTooLong));
    let fault = billing().fee(u32::MAX).to_bytes().unwrap_err();
    assert_eq!(fault.to_string(), "field 412: the field is too long");
}

#[test]
fn messages_are_read() {
    let request = billing().fill_number(7).to_bytes().unwrap();
    assert_eq!(Billing::read(&request), Ok(billing().fill_number(7)));
    assert_eq!(Reversal::read(&request), Err(ReadError::OtherKind));
    for fill in [None, Some(0), Some(99)] {
        let reversal = billing().reversal().fill_number(fill);
        assert_eq!(Reversal::read(&reversal.to_bytes().unwrap()), Ok(reversal.clone()));
        assert_eq!(Billing::read(&reversal.to_bytes().unwrap()), Err(ReadError::OtherKind));
    }
    let least = Billing::new(Header::new("000000", "", "20240229").qualifier(""), "1", 0, "1", 0, 0);
    assert_eq!(Billing::read(&least.to_bytes().unwrap()), Ok(least));
    let most = Billing::new(
        Header::new("999999", [b'P'; 15], "99991231").pcn([b'C'; 10]).qualifier("99").vendor([b'V'; 10]),
        [b'H'; 20],
        999_999_999_999,
        [b'N'; 19],
        9_999_999_999,
        99_999_999,
    )
    .fee(99_999_999)
    .fill_number(99);
    assert_eq!(Billing::read(&most.to_bytes().unwrap()), Ok(most));
    // The same order in other bytes, and what is none: each beginning, and each byte otherwise.
    let spelled = String::from_utf8(request.clone()).unwrap().replace("\x1cD37", "\x1cD307").into_bytes();
    assert_eq!(Billing::read(&spelled), Err(ReadError::OtherBytes));
    for size in 0..request.len() {
        assert!(Billing::read(&request[..size]).is_err());
        for byte in [0, b' ', b'0', b'9', b'{', 0x1c, 0x1d, 0x1e, 0xff] {
            let mut other = request.clone();
            other[size] = byte;
            match Billing::read(&other) {
                Ok(read) => assert_eq!(read.to_bytes().as_ref(), Ok(&other)),
                Err(fault) => assert!(matches!(fault, ReadError::OtherKind | ReadError::OtherBytes)),
            }
        }
    }
}

#[test]
fn answers_are_read() {
    let front = "D0B11A011234567893     20240115\x1d\x1e\x1cAM21\x1cAN";
    let behind = "\x1cF30001000000000001\x1e\x1cAM22\x1cEM1\x1cD2123456";
    let amounts = "\x1e\x1cAM23\x1cF5100{\x1cF6557{\x1cF715{\x1cF9472{";
    let paid = Paid {
        authorization: "0001000000000001".to_owned(),
        prescription: 123456,
        cost: 5570,
        fee: 150,
        copay: 1000,
        total: 4720,
    };
    let read = |text: String| Answer::read(text.as_bytes()).map(|answer| answer.rulings);
    assert_eq!(read(format!("{front}P{behind}{amounts}")), Ok(vec![Ruling::Paid(paid.clone())]));
    assert_eq!(read(format!("{front}D{behind}{amounts}")), Ok(vec![Ruling::Duplicate(paid.clone())]));
    let reversed = format!("{front}A{behind}").replace("D0B1", "D0B2");
    assert_eq!(read(reversed), Ok(vec![Ruling::Reversed { authorization: paid.authorization, prescription: 123456 }]));
    let codes = vec!["07".to_owned(), "70".to_owned()];
    assert_eq!(read(format!("{front}R\x1cFA2\x1cFB07\x1cFB70")), Ok(vec![Ruling::Rejected { codes }]));
    assert_eq!(read(format!("{front}P{behind}")), Err(ReadError::OtherKind));
    assert_eq!(read(format!("{front}X")), Err(ReadError::OtherKind));
    assert_eq!(Answer::read(b"D0"), Err(ReadError::OtherKind));
    assert_eq!(Answer::read(&billing().to_bytes().unwrap()), Err(ReadError::OtherKind));
    // A text of a message is no member of its description.
    assert_eq!(read(format!("{front}R\x1cFA1\x1cFB70\x1cZZ\"findings\":[{{\"ruling\":\"paid\"}}")), Ok(vec![Ruling::Rejected { codes: vec!["70".to_owned()] }]));
}
