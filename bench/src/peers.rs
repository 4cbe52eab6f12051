//! The C peers, with the signatures of the binding and of `measured`.

use crate::measured::{Header, asking};
use crate::multiplex::PACKET_BYTES;
use av1ts::Answer;
use std::marker::PhantomData;
use std::os::raw::c_uint;

/// C functions from bytes to bytes.
macro_rules! recoding {
    ($($name:ident = $symbol:ident;)*) => {$(
        pub fn $name(bytes: &[u8], out: &mut [u8]) -> Answer {
            extern "C" {
                fn $symbol(bytes: *const u8, len: usize, out: *mut u8, room: usize) -> Answer;
            }
            // SAFETY: both slices are valid for their lengths and do not overlap.
            unsafe { $symbol(bytes.as_ptr(), bytes.len(), out.as_mut_ptr(), out.len()) }
        }
    )*};
}

/// C functions that read a unit.
macro_rules! reading {
    ($($name:ident = $symbol:ident;)*) => {$(
        pub fn $name(unit: &[u8], out: &mut [u8], lengths: &mut [usize]) -> Answer {
            extern "C" {
                fn $symbol(
                    unit: *const u8, len: usize, out: *mut u8, room: usize, lengths: *mut usize, n: usize,
                ) -> Answer;
            }
            let (to, sizes) = (out.as_mut_ptr(), lengths.as_mut_ptr());
            // SAFETY: the slices are valid for their lengths and none overlaps another.
            unsafe { $symbol(unit.as_ptr(), unit.len(), to, out.len(), sizes, lengths.len()) }
        }
    )*};
}

/// C functions that write a unit.
macro_rules! writing {
    ($($name:ident = $symbol:ident;)*) => {$(
        pub fn $name(obus: &[u8], lengths: &[usize], out: &mut [u8]) -> Answer {
            extern "C" {
                fn $symbol(
                    obus: *const u8, len: usize, lengths: *const usize, n: usize, out: *mut u8, room: usize,
                ) -> Answer;
            }
            let (from, sizes) = (obus.as_ptr(), lengths.as_ptr());
            // SAFETY: the slices are valid for their lengths and the output overlaps no other.
            unsafe { $symbol(from, obus.len(), sizes, lengths.len(), out.as_mut_ptr(), out.len()) }
        }
    )*};
}

/// C functions that go over the packets of a segment.
macro_rules! looping {
    ($($name:ident = $symbol:ident;)*) => {$(
        pub fn $name(job: &Job) -> Packets {
            extern "C" {
                fn $symbol(job: *const Job) -> Packets;
            }
            // SAFETY: a job's pointers are of slices that it borrows, and the C side touches nothing
            // outside them, whatever the packets hold.
            unsafe { $symbol(job) }
        }
    )*};
}

pub mod plain {
    use super::*;

    recoding! {
        escape = plain_escape;
        unescape = plain_unescape;
    }
    asking! {
        check_unit: Answer = plain_check_unit;
        crc32: u64 = plain_crc32;
        headers: u64 = plain_headers;
    }
    reading! { read_unit = plain_read_unit; }
    writing! { write_unit = plain_write_unit; }

    pub fn header(packet: &[u8; PACKET_BYTES]) -> Header {
        extern "C" {
            fn plain_header(packet: *const u8) -> Header;
        }
        // SAFETY: the C side reads 188 bytes.
        unsafe { plain_header(packet.as_ptr()) }
    }

    /// CPU time of this thread: time that other processes take does not count.
    pub fn cpu_nanoseconds() -> u64 {
        extern "C" {
            fn plain_cpu_nanoseconds() -> u64;
        }
        // SAFETY: the C function takes nothing and only reads a clock.
        unsafe { plain_cpu_nanoseconds() }
    }

    /// Copies what the packets of one PID carry after their PES headers; gives the bytes copied.
    pub fn copy_payloads(segment: &[u8], pid: u16, out: &mut [u8]) -> usize {
        extern "C" {
            fn plain_copy_payloads(
                segment: *const u8,
                len: usize,
                pid: c_uint,
                out: *mut u8,
                room: usize,
            ) -> usize;
        }
        let (from, pid) = (segment.as_ptr(), c_uint::from(pid));
        // SAFETY: both slices are valid for their lengths and do not overlap; the C side touches
        // nothing outside them, whatever the packets hold.
        unsafe { plain_copy_payloads(from, segment.len(), pid, out.as_mut_ptr(), out.len()) }
    }

    /// Copies bytes into packets, 184 each; gives the bytes written.
    pub fn copy_into_packets(bytes: &[u8], out: &mut [u8]) -> usize {
        extern "C" {
            fn plain_copy_into_packets(
                bytes: *const u8,
                len: usize,
                out: *mut u8,
                room: usize,
            ) -> usize;
        }
        // SAFETY: both slices are valid for their lengths and do not overlap; the C side touches
        // nothing outside them.
        unsafe { plain_copy_into_packets(bytes.as_ptr(), bytes.len(), out.as_mut_ptr(), out.len()) }
    }
}

/// libavcodec's way.
pub mod lavc {
    use super::*;

    recoding! { unescape = lavc_unescape; }
    asking! {
        check_unit: Answer = lavc_check_unit;
        crc32: u64 = lavc_crc32;
    }
    reading! { read_unit = lavc_read_unit; }
}

/// SSE2 by hand.
pub mod sse2 {
    use super::*;

    recoding! {
        escape = sse2_escape;
        unescape = sse2_unescape;
    }
    asking! { check_unit: Answer = sse2_check_unit; }
    reading! { read_unit = sse2_read_unit; }
    writing! { write_unit = sse2_write_unit; }
    looping! { check_segment = sse2_check_segment; }
}

/// The packet loop.
pub mod packets {
    use super::*;

    looping! { read = packets_read; }
}

/// `packets_job`: a segment, the PID of its AV1, and room for what comes out.
#[repr(C)]
pub struct Job<'a> {
    segment: *const u8,
    len: usize,
    pid: usize,
    out: *mut u8,
    room: usize,
    lengths: *mut usize,
    times: *mut u64,
    units: usize,
    borrowed: PhantomData<&'a mut [u8]>,
}

impl<'a> Job<'a> {
    pub fn new(
        segment: &'a [u8],
        pid: u16,
        out: &'a mut [u8],
        lengths: &'a mut [usize],
        times: &'a mut [u64],
    ) -> Job<'a> {
        Job {
            segment: segment.as_ptr(),
            len: segment.len(),
            pid: pid.into(),
            out: out.as_mut_ptr(),
            room: out.len(),
            units: lengths.len().min(times.len() / 2),
            lengths: lengths.as_mut_ptr(),
            times: times.as_mut_ptr(),
            borrowed: PhantomData,
        }
    }
}

/// `packets_answer`: number 0 is success.
#[repr(C)]
#[derive(Clone, Copy, Debug, Default, PartialEq, Eq)]
pub struct Packets {
    pub number: u64,
    pub units: u64,
    pub bytes: u64,
    pub null_packets: u64,
    pub av1: u64,
}
