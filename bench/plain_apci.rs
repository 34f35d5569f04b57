//! The bare work of `bench_layers COUNT LENGTH`, as a plain loop: the same octets are written, and read back by looking
//! for the start octet and the length, copying the ASDU out and decoding N(S) and N(R). It prints the same.

use std::hint::black_box;

const BATCH: u32 = 1_000;

struct Tally {
    apdus: u64,
    octets: u64,
    sum: u64,
}

fn write_batch(octets: &mut Vec<u8>, first: u32, end: u32, asdu: &[u8]) {
    octets.clear();
    for place in first..end {
        let [nr_low, nr_high] = (2 * (place / 2 % 32_768) as u16).to_le_bytes();
        if place % 8 == 7 {
            octets.extend_from_slice(&[0x68, 4, 1, 0, nr_low, nr_high]);
        } else {
            let [ns_low, ns_high] = (2 * (place % 32_768) as u16).to_le_bytes();
            let length = 4 + asdu.len() as u8;
            octets.extend_from_slice(&[0x68, length, ns_low, ns_high, nr_low, nr_high]);
            octets.extend_from_slice(asdu);
        }
    }
}

fn read_batch(octets: &[u8], asdu: &mut [u8; 249], tally: &mut Tally) {
    let mut at = 0;
    while at + 2 <= octets.len() {
        let length = usize::from(octets[at + 1]);
        if octets[at] != 0x68 || !(4..=253).contains(&length) || at + 2 + length > octets.len() {
            return;
        }
        let body = &octets[at + 2..at + 2 + length];
        let first = u16::from_le_bytes([body[0], body[1]]);
        let second = u16::from_le_bytes([body[2], body[3]]);
        tally.apdus += 1;
        tally.sum += u64::from(second / 2);
        if first % 2 == 0 {
            let carried = &mut asdu[..length - 4];
            carried.copy_from_slice(&body[4..]);
            let carried = black_box(carried);
            tally.octets += carried.len() as u64;
            tally.sum += u64::from(first / 2) + u64::from(carried.last().copied().unwrap_or(0));
        }
        at += 2 + length;
    }
}

fn main() {
    let words: Vec<String> = std::env::args().collect();
    let count: u32 = words[1].parse().expect("COUNT");
    let length: u8 = words[2].parse().expect("LENGTH");
    let asdu: Vec<u8> = (1..=length).collect();
    let mut read = [0; 249];
    let mut octets = Vec::new();
    let mut tally = Tally {
        apdus: 0,
        octets: 0,
        sum: 0,
    };
    let mut first = 0;
    while first < count {
        let end = first + BATCH.min(count - first);
        write_batch(&mut octets, first, end, black_box(&asdu));
        read_batch(black_box(&octets), &mut read, &mut tally);
        first = end;
    }
    println!("{} APDUs with {} octets, sum {}", tally.apdus, tally.octets, tally.sum);
}
