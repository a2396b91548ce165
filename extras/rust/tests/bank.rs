//! The calls of the bank.

use parbegin::{Answer, BYTES, Bank, Fault, Reason};

#[test]
fn lends_what_is_safe() {
    let mut bank = Bank::new(&[10]).unwrap();
    for claim in [8, 8, 4] {
        bank.join(&[claim]).unwrap();
    }
    assert_eq!(bank.ask(0, &[4]), Ok(Answer::Granted));
    assert_eq!(bank.ask(1, &[4]), Ok(Answer::NotNow));
    assert_eq!(bank.why(1, &[4]), Ok(Reason::Rest(vec![0, 1, 2])));
    assert_eq!(bank.why(1, &[7]), Ok(Reason::OverCash(0)));
    assert_eq!(bank.why(1, &[9]), Ok(Reason::OverClaim(0)));
    assert_eq!(bank.why(2, &[1]), Ok(Reason::Allowed));
    assert_eq!(bank.ask(2, &[5]), Ok(Answer::OverClaim));
    assert_eq!(bank.ask(3, &[1]), Err(Fault::NoRequest));
    assert_eq!(bank.ask(0, &[]), Err(Fault::NoRequest));
    assert_eq!(bank.give(1, &[1]), Err(Fault::NotHeld));
    assert_eq!((bank.loans(0), bank.cash()), (Some(&[4][..]), &[6][..]));
    assert_eq!(bank.give(0, &[1]), Ok(()));
    assert_eq!(bank.drop_all(0), Ok(()));
    assert_eq!(bank.order(), [0, 1, 2]);
}

#[test]
fn jobs_come_and_go() {
    let mut bank = Bank::new(&[2, 2]).unwrap();
    assert_eq!(bank.join(&[1, 3]), Err(Fault::OverCapital(1)));
    assert_eq!(bank.join(&[1]), Err(Fault::NoRequest));
    for slot in 0..64 {
        assert_eq!(bank.join(&[2, 2]), Ok(slot));
    }
    assert_eq!(bank.join(&[0, 0]), Err(Fault::Full));
    assert_eq!(bank.ask(9, &[2, 1]), Ok(Answer::Granted));
    assert_eq!(bank.leave(9), Ok(()));
    assert_eq!((bank.leave(9), bank.loans(9)), (Err(Fault::NoRequest), None));
    assert_eq!((bank.cash(), bank.order().len()), (&[2, 2][..], 63));
    assert_eq!((bank.join(&[1, 1]), bank.claims(9)), (Ok(9), Some(&[1, 1][..])));
}

#[test]
fn adopts_what_was_saved() {
    let mut bank = Bank::new(&[3]).unwrap();
    bank.join(&[2]).unwrap();
    bank.join(&[3]).unwrap();
    bank.ask(0, &[1]).unwrap();
    let bytes = bank.to_bytes();
    assert_eq!(bytes.len(), BYTES);
    assert_eq!(Bank::adopt(&bytes).unwrap().loans(0), Some(&[1][..]));
    for at in (0..BYTES).filter(|at| *at < 20 || at % 97 == 0) {
        let mut damaged = bytes.clone();
        damaged[at] ^= 1 << (at % 8);
        assert!(Bank::adopt(&damaged).is_err(), "{at}");
    }
}

#[test]
fn adopts_no_bytes_that_are_none() {
    let mut bank = Bank::new(&[3]).unwrap();
    let empty = bank.to_bytes();
    bank.join(&[2]).unwrap();
    bank.ask(0, &[1]).unwrap();
    let bytes = bank.to_bytes();
    let half = bytes.len() / 2;
    let torn = [&empty[..half], &bytes[half..]].concat();
    let other = [&bytes[..8], &[2], &bytes[9..]].concat();
    for (given, fault) in [
        (&[0; BYTES][..], Fault::NoMagicWord),
        (&[0xff; BYTES], Fault::NoMagicWord),
        (&bytes[20..], Fault::NoMagicWord),
        (&[], Fault::NotWhole),
        (&bytes[..7], Fault::NotWhole),
        (&bytes[..BYTES - 1], Fault::NotWhole),
        (&torn, Fault::Damaged),
        (&other, Fault::OtherVersion(2)),
    ] {
        assert_eq!(Bank::adopt(given).err(), Some(fault), "{fault}");
    }
}

/// The checksum is that of zlib, and with it bytes that are no bank are none.
#[test]
fn adopts_no_numbers_that_are_none() {
    let mut zeroes = b"PB BANK\n\x01\0\0\0\x10\x21\0\0".to_vec();
    zeroes.extend_from_slice(&0x15b4f1b7_u32.to_le_bytes());
    zeroes.extend_from_slice(&[0; 8_464]);
    assert_eq!(Bank::adopt(&zeroes).err(), Some(Fault::NoBank));
    let mut few = b"PB BANK\n\x01\0\0\0\x09\0\0\0\x26\x39\xf4\xcb".to_vec();
    few.extend_from_slice(b"123456789");
    assert_eq!(Bank::adopt(&few).err(), Some(Fault::NoBank));
}

#[test]
fn opens_no_bank_of_wrong_numbers() {
    assert_eq!(Bank::new(&[]).err(), Some(Fault::NoBank));
    assert_eq!(Bank::new(&[1_000_001]).err(), Some(Fault::NoBank));
    assert_eq!(Bank::new(&[1; 17]).err(), Some(Fault::NoBank));
    assert!(Bank::new(&[1_000_000; 16]).is_ok());
}
