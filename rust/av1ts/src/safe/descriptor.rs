//! The AV1 video descriptor.

use super::Refused;
use crate::descriptor::{read_descriptor, rewrite_descriptor, write_descriptor};

/// What an AV1 video descriptor says.
#[derive(Clone, Copy, Debug, Default, PartialEq, Eq)]
pub struct VideoDescriptor {
    pub seq_profile: u8,
    pub seq_level_idx_0: u8,
    pub seq_tier_0: u8,
    pub high_bitdepth: u8,
    pub twelve_bit: u8,
    pub monochrome: u8,
    pub chroma_subsampling_x: u8,
    pub chroma_subsampling_y: u8,
    pub chroma_sample_position: u8,
    pub hdr_wcg_idc: u8,
    /// initial_presentation_delay_minus_one, where it is present. It is read and never written.
    pub delay: Option<u8>,
}

/// A descriptor written anew, and whether it had a delay, which is not written.
#[derive(Clone, Copy, Debug, PartialEq, Eq)]
pub struct Rewritten {
    pub bytes: [u8; 6],
    pub dropped_delay: bool,
}

impl VideoDescriptor {
    /// Reads a descriptor, which is given with its tag and length.
    ///
    /// ```
    /// let descriptor = av1ts::VideoDescriptor::read(&[0x80, 4, 0x81, 8, 0x0C, 0xC0])?;
    /// assert_eq!(descriptor.seq_level_idx_0, 8);
    /// assert_eq!(descriptor.delay, None);
    /// assert_eq!(descriptor.write()?, [0x80, 4, 0x81, 8, 0x0C, 0xC0]);
    /// # Ok::<(), av1ts::Refused>(())
    /// ```
    pub fn read(bytes: &[u8]) -> Result<VideoDescriptor, Refused> {
        let answer = read_descriptor(bytes);
        Refused::check(answer.number, answer.place)?;
        let field = answer.field.map(|value| value as u8);
        Ok(VideoDescriptor {
            seq_profile: field[0],
            seq_level_idx_0: field[1],
            seq_tier_0: field[2],
            high_bitdepth: field[3],
            twelve_bit: field[4],
            monochrome: field[5],
            chroma_subsampling_x: field[6],
            chroma_subsampling_y: field[7],
            chroma_sample_position: field[8],
            hdr_wcg_idc: field[9],
            delay: (answer.delay_present != 0).then_some(answer.delay as u8),
        })
    }

    /// The bytes of the descriptor, its delay absent.
    ///
    /// ```
    /// let wide = av1ts::VideoDescriptor { seq_profile: 8, ..Default::default() };
    /// assert_eq!(wide.write().unwrap_err().why, av1ts::Refusal::DescriptorField);
    /// ```
    pub fn write(&self) -> Result<[u8; 6], Refused> {
        let mut out = [0; 6];
        let answer = write_descriptor(&self.fields(), &mut out);
        Refused::check(answer.number, answer.place)?;
        Ok(out)
    }

    /// The ten fields, in the descriptor's order.
    pub fn fields(&self) -> [u8; 10] {
        [
            self.seq_profile,
            self.seq_level_idx_0,
            self.seq_tier_0,
            self.high_bitdepth,
            self.twelve_bit,
            self.monochrome,
            self.chroma_subsampling_x,
            self.chroma_subsampling_y,
            self.chroma_sample_position,
            self.hdr_wcg_idc,
        ]
    }

    /// A descriptor read and written without its delay.
    ///
    /// ```
    /// let rewritten = av1ts::VideoDescriptor::rewrite(&[0x80, 4, 0x81, 8, 0x0C, 0xD5])?;
    /// assert_eq!(rewritten.bytes, [0x80, 4, 0x81, 8, 0x0C, 0xC0]);
    /// assert!(rewritten.dropped_delay);
    /// # Ok::<(), av1ts::Refused>(())
    /// ```
    pub fn rewrite(bytes: &[u8]) -> Result<Rewritten, Refused> {
        let mut out = [0; 6];
        let answer = rewrite_descriptor(bytes, &mut out);
        Refused::check(answer.number, answer.place)?;
        Ok(Rewritten {
            bytes: out,
            dropped_delay: answer.dropped_delay != 0,
        })
    }
}
