//! An outstation's end of the link and the transport layer (IEEE Std 1815, clauses 9 and 8).

/// The link address of the master.
pub const MASTER: u16 = 1024;
/// The most octets of a fragment, of a segment behind its header, and of a block.
pub const FRAGMENT: usize = 2048;
const SEGMENT: usize = 249;
const BLOCK: usize = 16;
/// CONTROL of unconfirmed user data, from an outstation and from a master.
const USER_DATA: u8 = 0x44;
const MASTER_USER_DATA: u8 = 0xC4;
const FIR: u8 = 0x40;
const FIN: u8 = 0x80;

const REMAINDERS: [u16; 256] = remainders();

/// What an octet makes of the CRC: x^16 + x^13 + x^12 + x^11 + x^10 + x^8 + x^6 + x^5 + x^2 + 1, least bits first.
const fn remainders() -> [u16; 256] {
    let mut table = [0; 256];
    let mut place = 0;
    while place < 256 {
        let mut register = place as u16;
        let mut bit = 0;
        while bit < 8 {
            register = (register >> 1) ^ if register & 1 == 1 { 0xA6BC } else { 0 };
            bit += 1;
        }
        table[place] = register;
        place += 1;
    }
    table
}

fn crc(octets: &[u8]) -> [u8; 2] {
    let mut register = 0;
    for octet in octets {
        register = (register >> 8) ^ REMAINDERS[usize::from(register as u8 ^ octet)];
    }
    (!register).to_le_bytes()
}

/// Adds octets and their CRC.
fn add_block(octets: &[u8], out: &mut Vec<u8>) {
    out.extend_from_slice(octets);
    out.extend_from_slice(&crc(octets));
}

/// Adds a frame with user data to the master.
fn add_frame(source: u16, user: &[u8], out: &mut Vec<u8>) {
    let ([to_low, to_high], [from_low, from_high]) = (MASTER.to_le_bytes(), source.to_le_bytes());
    add_block(&[0x05, 0x64, 5 + user.len() as u8, USER_DATA, to_low, to_high, from_low, from_high], out);
    for block in user.chunks(BLOCK) {
        add_block(block, out);
    }
}

/// One connection.
pub struct Link {
    address: u16,
    segments_sent: u8,
    segments_taken: u8,
    input: Vec<u8>,
}

impl Link {
    pub fn new(address: u16) -> Link {
        Link { address, segments_sent: 0, segments_taken: 0, input: Vec::new() }
    }

    /// Adds the frames of a fragment.
    pub fn write(&mut self, fragment: &[u8], out: &mut Vec<u8>) {
        let last = fragment.len().div_ceil(SEGMENT) - 1;
        let mut user = [0; SEGMENT + 1];
        for (place, piece) in fragment.chunks(SEGMENT).enumerate() {
            let ends = if place == 0 { FIR } else { 0 } | if place == last { FIN } else { 0 };
            user[0] = ends | self.segments_sent;
            user[1..=piece.len()].copy_from_slice(piece);
            self.segments_sent = (self.segments_sent + 1) & 0x3F;
            add_frame(self.address, &user[..=piece.len()], out);
        }
    }

    pub fn feed(&mut self, octets: &[u8]) {
        self.input.extend_from_slice(octets);
    }

    /// The next fragment of the master, if it is whole: one frame, which has to be right.
    pub fn next(&mut self) -> Result<Option<Vec<u8>>, String> {
        if self.input.len() < 10 {
            return Ok(None);
        }
        let length = usize::from(self.input[2]).saturating_sub(5);
        let end = 10 + length + 2 * length.div_ceil(BLOCK);
        if self.input.len() < end {
            return Ok(None);
        }
        let octets: Vec<u8> = self.input.drain(..end).collect();
        let wanted = (&[0x05, 0x64][..], MASTER_USER_DATA, self.address.to_le_bytes(), MASTER.to_le_bytes());
        let header = (&octets[..2], octets[3], [octets[4], octets[5]], [octets[6], octets[7]]);
        let mut user = Vec::with_capacity(length);
        let mut is_right = header == wanted && crc(&octets[..8]) == octets[8..10];
        for block in octets[10..].chunks(BLOCK + 2) {
            let (data, check) = block.split_at(block.len() - 2);
            is_right &= crc(data) == check;
            user.extend_from_slice(data);
        }
        is_right &= user.first() == Some(&(FIR | FIN | self.segments_taken));
        if !is_right {
            return Err(format!("a frame of the master is wrong: {octets:02X?}"));
        }
        self.segments_taken = (self.segments_taken + 1) & 0x3F;
        user.remove(0);
        Ok(Some(user))
    }
}

#[cfg(test)]
mod tests {
    use super::*;

    #[test]
    fn a_known_crc() {
        assert_eq!(crc(&[0x05, 0x64, 0x05, 0xC0, 0x01, 0x00, 0x00, 0x04]), [0xE9, 0x21]);
    }

    #[test]
    fn frames_of_the_master_have_to_be_right() {
        let mut frame = Vec::new();
        add_block(&[0x05, 0x64, 8, MASTER_USER_DATA, 1, 0, 0, 4], &mut frame);
        add_block(&[FIR | FIN, 0xC3, 0], &mut frame);
        for cut in 0..frame.len() {
            let mut link = Link::new(1);
            link.feed(&frame[..cut]);
            assert_eq!(link.next(), Ok(None));
            link.feed(&frame[cut..]);
            assert_eq!(link.next(), Ok(Some(vec![0xC3, 0])));
            link.feed(&frame);
            assert!(link.next().is_err(), "the same transport number again");
        }
        for place in [0, 1, 3, 4, 6, 8, 10, 11, 13] {
            let mut link = Link::new(1);
            let mut wrong = frame.clone();
            wrong[place] ^= 0x10;
            link.feed(&wrong);
            assert!(link.next().is_err(), "octet {place}");
        }
    }
}
