//! APDUs of IEC 60870-5-104, and the objects of ASDUs with process information (IEC 60870-5-101, 7.3).

/// U formats.
pub const START: [u8; 6] = u_format(0x07);
pub const STOP: [u8; 6] = u_format(0x13);
pub const TEST: [u8; 6] = u_format(0x43);
pub const TEST_CON: [u8; 6] = u_format(0x83);
pub const START_CON_FUNCTION: u8 = 0x0B;
pub const STOP_CON_FUNCTION: u8 = 0x23;
pub const TEST_FUNCTION: u8 = 0x43;
pub const TEST_CON_FUNCTION: u8 = 0x83;
/// Types of single commands, and of the two interrogations, and the qualifiers of these.
pub const COMMAND: u8 = 45;
pub const GENERAL: u8 = 100;
pub const COUNTERS: u8 = 101;
const GENERAL_QUALIFIER: u8 = 20;
const COUNTERS_QUALIFIER: u8 = 5;
/// Causes of transmission.
pub const SPONTANEOUS: u8 = 3;
const ACTIVATION: u8 = 6;
pub const CONFIRMATION: u8 = 7;
pub const TERMINATION: u8 = 10;
pub const INTERROGATED: u8 = 20;
pub const COUNTERS_REQUESTED: u8 = 37;
/// The common address of all stations.
pub const ALL_STATIONS: u16 = 0xFFFF;
/// The bit of a cause that refuses.
pub const NEGATIVE: u8 = 0x40;
/// Bits of a single command: on, and a select.
const ON: u8 = 0x01;
const SELECT: u8 = 0x80;
/// Bits of a quality: invalid, not topical.
pub const IV: u8 = 0x80;
pub const NT: u8 = 0x40;
const SQ: u8 = 0x80;

const fn u_format(function: u8) -> [u8; 6] {
    [0x68, 4, function, 0, 0, 0]
}

pub fn s_format(received: u16) -> [u8; 6] {
    let [low, high] = (received << 1).to_le_bytes();
    [0x68, 4, 1, 0, low, high]
}

pub fn i_format(asdu: &[u8], sent: u16, received: u16) -> Vec<u8> {
    let ([sent_low, sent_high], [low, high]) = ((sent << 1).to_le_bytes(), (received << 1).to_le_bytes());
    let mut apdu = vec![0x68, 4 + asdu.len() as u8, sent_low, sent_high, low, high];
    apdu.extend_from_slice(asdu);
    apdu
}

/// The ASDU of an interrogation of the station with a common address, or of all.
pub fn interrogation(kind: u8, common: u16) -> [u8; 10] {
    let qualifier = if kind == GENERAL { GENERAL_QUALIFIER } else { COUNTERS_QUALIFIER };
    let [common_low, common_high] = common.to_le_bytes();
    [kind, 1, ACTIVATION, 0, common_low, common_high, 0, 0, 0, qualifier]
}

/// The ASDU of a single command, on.
pub fn command(common: u16, address: u32, is_select: bool) -> [u8; 10] {
    let ([common_low, common_high], [low, middle, high, _]) = (common.to_le_bytes(), address.to_le_bytes());
    let element = if is_select { ON | SELECT } else { ON };
    [COMMAND, 1, ACTIVATION, 0, common_low, common_high, low, middle, high, element]
}

/// The common address of an ASDU.
pub fn common_of(asdu: &[u8]) -> u16 {
    u16::from_le_bytes([asdu[4], asdu[5]])
}

/// An APDU that came.
#[derive(Debug)]
pub enum Apdu {
    I { sent: u16, received: u16, asdu: Vec<u8> },
    S { received: u16 },
    U { function: u8 },
}

/// The first APDU of octets and its length, where it is whole.
pub fn read(octets: &[u8]) -> Result<Option<(usize, Apdu)>, String> {
    let [start, length, rest @ ..] = octets else { return Ok(None) };
    let length = usize::from(*length);
    if *start != 0x68 || !(4..=253).contains(&length) {
        return Err(format!("no APDU begins with {:02X?}", &octets[..2]));
    }
    let Some((body, _)) = rest.split_at_checked(length) else { return Ok(None) };
    let first = u16::from_le_bytes([body[0], body[1]]);
    let received = u16::from_le_bytes([body[2], body[3]]) >> 1;
    let apdu = match first & 3 {
        0 | 2 if length > 4 => Apdu::I { sent: first >> 1, received, asdu: body[4..].to_vec() },
        1 if length == 4 => Apdu::S { received },
        3 if length == 4 => Apdu::U { function: body[0] },
        _ => return Err(format!("no APDU is {body:02X?}")),
    };
    Ok(Some((length + 2, apdu)))
}

/// An object of process information.
pub struct Object {
    pub common: u16,
    pub address: u32,
    pub value: u32,
    pub quality: u8,
    /// Its time tag, where it has one.
    pub time: Option<[u8; 7]>,
}

/// The objects of an ASDU, in their order: bit strings and integrated totals, with or without time.
pub fn objects(asdu: &[u8]) -> Result<Vec<Object>, String> {
    let wrong = || format!("an ASDU that isn't to be expected: {asdu:02X?}");
    let time = match asdu[0] {
        7 | 15 => 0,
        33 | 37 => 7,
        _ => return Err(wrong()),
    };
    let (element, is_total) = (5 + time, matches!(asdu[0], 15 | 37));
    let (count, is_sequence) = (usize::from(asdu[1] & !SQ), asdu[1] & SQ != 0);
    let each = if is_sequence { element } else { element + 3 };
    if count == 0 || asdu.len() != 6 + count * each + if is_sequence { 3 } else { 0 } || asdu[3] != 0 {
        return Err(wrong());
    }
    let common = common_of(asdu);
    let address_at = |at: usize| u32::from_le_bytes([asdu[at], asdu[at + 1], asdu[at + 2], 0]);
    let object = |place: usize| {
        let (address, at) = if is_sequence {
            (address_at(6) + place as u32, 9 + place * element)
        } else {
            (address_at(6 + place * each), 9 + place * each)
        };
        let value = u32::from_le_bytes([asdu[at], asdu[at + 1], asdu[at + 2], asdu[at + 3]]);
        // A total has its sequence number, carry and adjustment beside IV.
        let quality = if is_total { asdu[at + 4] & IV } else { asdu[at + 4] };
        Object { common, address, value, quality, time: asdu[at + 5..at + element].try_into().ok() }
    };
    Ok((0..count).map(object).collect())
}
