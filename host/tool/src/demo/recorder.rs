//! A recorder: codes what its camera sees, an intra picture first, then pictures that are predicted.

use super::transform;
use super::wall::{SIZE, STEP};
use crate::picture::{Picture, Settings};
use deblock::{Answer, Grids, Offsets, Part};

/// A luma QP that recorders use on good links; a chroma QP below 30 is the same.
const QP: u8 = 24;

/// What goes from the recorder to a station for one picture: the residual of each plane, and what the filter
/// is lent.
pub struct Sent {
    residual: [Vec<i16>; 3],
    pub settings: Settings,
}

impl Sent {
    /// Codes a picture whose prediction the recorder made from its own last filtered picture.
    pub fn new(seen: &Picture, prediction: &Picture, intra: bool, offsets: Offsets) -> Sent {
        let planes = [
            (&seen.luma, &prediction.luma, 16 * SIZE.w),
            (&seen.u, &prediction.u, 8 * SIZE.w),
            (&seen.v, &prediction.v, 8 * SIZE.w),
        ];
        let [luma, u, v] = planes.map(|(seen, prediction, width)| {
            let residual: Vec<i16> = seen.iter().zip(prediction).map(|(&s, &p)| i16::from(s) - i16::from(p)).collect();
            transform::keep(&residual, width, QP)
        });
        Sent { settings: settings(&luma.1, intra, offsets), residual: [luma.0, u.0, v.0] }
    }

    /// The picture before the filter: a station's own prediction, and the residual.
    pub fn onto(&self, prediction: &Picture) -> Picture {
        let [luma, u, v] = &self.residual;
        let sum = |prediction: &[u8], residual: &[i16]| {
            prediction.iter().zip(residual).map(|(&p, &r)| (i16::from(p) + r).clamp(0, 255) as u8).collect()
        };
        let Picture { luma: luma_of, u: u_of, v: v_of, .. } = prediction;
        Picture { size: SIZE, luma: sum(luma_of, luma), u: sum(u_of, u), v: sum(v_of, v) }
    }
}

/// What is predicted before any picture is there: grey.
pub fn grey() -> Picture {
    let n = SIZE.macroblocks();
    Picture { size: SIZE, luma: vec![128; 256 * n], u: vec![128; 64 * n], v: vec![128; 64 * n] }
}

/// The prediction from the last filtered picture, the wall moved on. A chroma sample lies half way between
/// two (ITU-T H.264, clause 8.4.2.2.2); beyond the border the last one is repeated.
pub fn moved(last: &Picture) -> Picture {
    let at =
        |plane: &[u8], width: usize, i: usize, by: usize| plane[i / width * width + (i % width + by).min(width - 1)];
    let luma = (0..last.luma.len()).map(|i| at(&last.luma, 16 * SIZE.w, i, STEP)).collect();
    let half = |plane: &[u8]| {
        let sample = |i: usize, by: usize| u16::from(at(plane, 8 * SIZE.w, i, by));
        (0..plane.len()).map(|i| (sample(i, STEP / 2) + sample(i, STEP / 2 + 1)).div_ceil(2) as u8).collect()
    };
    Picture { size: SIZE, luma, u: half(&last.u), v: half(&last.v) }
}

/// What filtering is lent: one motion for the whole picture, strengths from the proved call.
fn settings(coded: &[bool], intra: bool, offsets: Offsets) -> Settings {
    let n = SIZE.macroblocks();
    let inter = vec![u8::from(!intra); 16 * n];
    let nnz: Vec<u8> = coded.iter().map(|&c| c.into()).collect();
    let mv0 = [4 * STEP as i16, 0].repeat(16 * n);
    let grids = Grids { inter: &inter, nnz: &nnz, ref0: &vec![0; 16 * n], mv0: &mv0, ..Grids::default() };
    let mut strengths = vec![0; 32 * n];
    let mut lent = deblock::Picture { size: SIZE, strengths: &mut strengths, ..Default::default() };
    for place in SIZE.places() {
        let answer = lent.derive(grids, place);
        assert_eq!(answer, Answer::Done, "the recorder's grids are in the domain");
    }
    Settings { part: Part::Frame, offsets, slices: None, strengths, qps: vec![QP; n], t8s: Vec::new() }
}
