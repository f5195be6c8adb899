//! From colour to degrees: what a legend predicts at a pixel, beside what was measured.
use crate::refusal::Refusal;
use crate::sys;

/// The number of the answer that is neither a reading nor a refusal.
const NOT_MEASURED: u32 = 17;

/// What a pixel's red means, in degrees. Each operation rounds once, to the nearest `f32`.
#[derive(Clone, Copy, Debug, PartialEq)]
pub enum Legend {
    /// The same degrees at every red.
    Level(f32),
    /// `low + step * red`.
    Line {
        /// The degrees at red 0.
        low: f32,
        /// The degrees that each red adds.
        step: f32,
    },
    /// A line up to red 128, and beyond it `(low + step * 128) + second * (red - 128)`.
    Bend {
        /// The degrees at red 0.
        low: f32,
        /// The degrees that each red adds, up to 128.
        step: f32,
        /// Those that each adds beyond it.
        second: f32,
    },
}

/// A pixel's degrees. No value is infinite or a NaN.
#[derive(Clone, Copy, Debug, Default, PartialEq)]
pub struct Reading {
    /// What the legend predicts at the pixel.
    pub predicted: f32,
    /// What was measured.
    pub measured: f32,
    /// Predicted minus measured, rounded once.
    pub difference: f32,
}

/// The reading at a pixel by a legend that names a digit, of a picture that shows one, 0 thumb to 4
/// little; or `None` where the pixel was not measured, which is so where its alpha is 0.
///
/// Refuses with [`Refusal::BadLegend`], [`Refusal::BadDigit`] or [`Refusal::BadMeasurement`], tested
/// in that order and before the alpha.
///
/// ```
/// use yalivucu::typed::{degrees, Legend, Reading, Refusal};
///
/// let legend = Legend::Line { low: 10.0, step: 0.5 };
/// let reading = degrees(legend, 1, 1, 0xffc81234, 100.0)?; // red is 200
/// assert_eq!(reading, Some(Reading { predicted: 110.0, measured: 100.0, difference: 10.0 }));
/// assert_eq!(degrees(legend, 1, 1, 0x00c81234, 100.0)?, None);
/// assert_eq!(degrees(legend, 1, 2, 0xffc81234, 100.0), Err(Refusal::BadDigit));
/// # Ok::<(), Refusal>(())
/// ```
pub fn degrees(
    legend: Legend,
    legend_digit: usize,
    picture_digit: usize,
    pixel: u32,
    measured: f32,
) -> Result<Option<Reading>, Refusal> {
    let (kind, low, step, second) = match legend {
        Legend::Level(degrees) => (0, degrees, 0.0, 0.0),
        Legend::Line { low, step } => (1, low, step, 0.0),
        Legend::Bend { low, step, second } => (2, low, step, second),
    };
    let mut reading = Reading::default();
    // SAFETY: the three pointers are those of three fields of a local.
    let number = unsafe {
        sys::yalivucu_read_degrees(
            kind,
            low,
            step,
            second,
            legend_digit,
            picture_digit,
            pixel,
            measured,
            &mut reading.predicted,
            &mut reading.measured,
            &mut reading.difference,
        )
    };
    if number == NOT_MEASURED {
        return Ok(None);
    }
    Refusal::answered(number, 0).map(|()| Some(reading))
}
