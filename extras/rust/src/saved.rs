//! The bytes of a bank, as a file has them: a magic word, a version, a length and a checksum, and then the bank.

use crate::bank::Fault;

const MAGIC: &[u8; 8] = b"PB BANK\n";
const VERSION: u32 = 1;
/// The bytes before the bank: the magic word, the version, how many bytes follow, and their CRC-32, numbers of 32
/// bits with the lowest byte first.
pub(crate) const HEAD: usize = 20;

/// Returns the CRC-32 of these bytes, as gzip and zlib have it.
fn checksum(bytes: &[u8]) -> u32 {
    !bytes.iter().fold(!0, |sum, byte| {
        (0..8).fold(sum ^ u32::from(*byte), |sum, _| (sum >> 1) ^ (0xEDB8_8320 & (sum & 1).wrapping_neg()))
    })
}

/// Returns the head of the bytes of a bank.
pub(crate) fn head(bank: &[u8]) -> [u8; HEAD] {
    let mut head = [0; HEAD];
    head[..8].copy_from_slice(MAGIC);
    head[8..12].copy_from_slice(&VERSION.to_le_bytes());
    head[12..16].copy_from_slice(&(bank.len() as u32).to_le_bytes());
    head[16..].copy_from_slice(&checksum(bank).to_le_bytes());
    head
}

/// Returns the bytes behind the head, if they are those that it was written for.
pub(crate) fn behind_head(given: &[u8]) -> Result<&[u8], Fault> {
    let Some((head, bank)) = given.split_at_checked(HEAD) else {
        return Err(Fault::NotWhole);
    };
    let number = |at: usize| u32::from_le_bytes([head[at], head[at + 1], head[at + 2], head[at + 3]]);
    if head[..8] != *MAGIC {
        Err(Fault::NoMagicWord)
    } else if number(8) != VERSION {
        Err(Fault::OtherVersion(number(8)))
    } else if number(12) as usize != bank.len() {
        Err(Fault::NotWhole)
    } else if number(16) != checksum(bank) {
        Err(Fault::Damaged)
    } else {
        Ok(bank)
    }
}
