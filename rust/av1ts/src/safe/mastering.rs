//! Mastering figures.

use super::Refused;
use crate::mastering::{read_mastering, write_mastering};

/// The figures of metadata_hdr_mdcv: x and y of red, green and blue, and of the white point.
#[derive(Clone, Copy, Debug, PartialEq)]
pub struct MasteringFigures {
    pub primaries: [[f64; 2]; 3],
    pub white_point: [f64; 2],
    pub luminance_max: f64,
    pub luminance_min: f64,
}

impl MasteringFigures {
    /// Reads the content of a metadata OBU, from its type on.
    ///
    /// ```
    /// use av1ts::MasteringFigures;
    /// // steps of ST 2086: 0.00002 for x and y, 0.0001 for the luminances
    /// let steps = [34000, 16000, 13250, 34500, 7500, 3000, 15635, 16450, 10_000_000, 1];
    /// let content = MasteringFigures::write(&steps)?;
    /// let figures = MasteringFigures::read(&content)?;
    /// assert_eq!(figures.luminance_max, 1000.0);
    /// assert_eq!(figures.primaries[0][0], 44564.0 / 65536.0);
    /// # Ok::<(), av1ts::Refused>(())
    /// ```
    pub fn read(content: &[u8]) -> Result<MasteringFigures, Refused> {
        let answer = read_mastering(content);
        Refused::check(answer.number, answer.place)?;
        let f = answer.figure;
        Ok(MasteringFigures {
            primaries: [[f[0], f[1]], [f[2], f[3]], [f[4], f[5]]],
            white_point: [f[6], f[7]],
            luminance_max: f[8],
            luminance_min: f[9],
        })
    }

    /// The content of ten whole numbers of ST 2086, in the content's order.
    pub fn write(steps: &[u64; 10]) -> Result<[u8; 26], Refused> {
        let mut out = [0; 26];
        let answer = write_mastering(steps, &mut out);
        Refused::check(answer.number, answer.place)?;
        Ok(out)
    }
}
