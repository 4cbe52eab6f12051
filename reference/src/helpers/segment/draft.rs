//! Recordings of the draft of 2018.

use crate::helpers::segment::make::Made;
use crate::kit::Random;
use reference::compose::{Load, Packet};
use reference::descriptor::REGISTRATION;
use reference::edition::{DRAFT_REGISTRATION, NO_TIME};

/// Bytes with the draft's registration wherever the current one stands.
pub fn draft_bytes(bytes: &[u8]) -> Vec<u8> {
    let mut draft = bytes.to_vec();
    for at in 0..bytes.len() {
        if bytes[at..].starts_with(&REGISTRATION) {
            draft[at..at + 6].copy_from_slice(&DRAFT_REGISTRATION);
        }
    }
    draft
}

/// The same packets as a recording of the draft.
pub fn draft_packets(packets: &[Packet]) -> Vec<Packet> {
    let mut draft = packets.to_vec();
    for packet in &mut draft {
        if let Load::Section(section) = &mut packet.load {
            section.body = draft_bytes(&section.body);
        }
    }
    draft
}

/// A made segment as a recording of the draft; times are taken from some units or from all.
pub fn draft_of(random: &mut Random, made: &Made, taken: usize) -> Made {
    let mut packets = draft_packets(&made.packets);
    let mut accepted = made.accepted.clone();
    // "2026-04 answers none"
    accepted.comparison = None;
    // The units start after the PMT, which is the first section on its PID.
    let pmt = packets
        .iter()
        .position(|packet| packet.pid == made.map_pid && matches!(packet.load, Load::Section(_)))
        .expect("there is a PMT");
    let mut at = 0;
    for packet in &mut packets[pmt + 1..] {
        if packet.pid == accepted.pid && packet.start && packet.has_payload() {
            if taken == 2 || taken == 1 && random.one_in(2) {
                packet.bytes_mut()[7] &= 0x3F;
                accepted.units[at].pts = NO_TIME;
                accepted.units[at].dts = NO_TIME;
            }
            at += 1;
        }
    }
    Made {
        packets,
        accepted,
        listing: made.listing.clone(),
        map_pid: made.map_pid,
        pids: made.pids.clone(),
        features: Vec::new(),
    }
}
