//! Holds the library to the strengths of a recording.

use crate::beside::Verdict;
use crate::check::Report;
use crate::part;
use crate::picture::Settings;
use crate::recording::{BlockGrids, Recording};
use crate::say::{counted, differ};
use deblock::{Answer, Place, Size};

/// Derives every macroblock's strengths from the grids and compares them with those in the file.
pub fn check(r: &Recording) -> Report {
    let parts = r.settings.iter().zip(&r.grids);
    let lines: Vec<String> = parts.flat_map(|(settings, grids)| derive(r.before.size, settings, grids)).collect();
    if !lines.is_empty() {
        return Report { verdict: Verdict::Different, lines };
    }
    let line = if r.grids.is_empty() { "taken as they are, without grids" } else { "as in the file" };
    Report { verdict: Verdict::Equal, lines: vec![format!("strengths: {line}")] }
}

/// Those of the frame or of one field: what is wrong with them.
fn derive(size: Size, settings: &Settings, grids: &BlockGrids) -> Vec<String> {
    let mut derived = vec![0; settings.strengths.len()];
    let Settings { part, t8s, .. } = settings;
    let mut lent = deblock::Picture { size, part: *part, strengths: &mut derived, t8s, ..Default::default() };
    let (mut wrong, mut refused) = (Vec::new(), Vec::new());
    for (m, at) in size.places().enumerate() {
        let answer = lent.derive(grids.lent(), at);
        if answer != Answer::Done {
            refused.push((at, answer));
        } else if lent.strengths[32 * m..][..32] != settings.strengths[32 * m..][..32] {
            wrong.push(at);
        }
    }
    in_words(&wrong, &refused).into_iter().map(|line| part::told(*part, line)).collect()
}

fn in_words(wrong: &[Place], refused: &[(Place, Answer)]) -> Vec<String> {
    let mut lines = Vec::new();
    if let Some(Place { x, y }) = wrong.first() {
        lines.push(format!("strengths: {}, the first is ({x}, {y})", differ(wrong.len(), "macroblock")));
    }
    if let Some((Place { x, y }, answer)) = refused.first() {
        let (count, number) = (counted(refused.len(), "refusal"), answer.number());
        lines.push(format!("strengths: {count}, the first at ({x}, {y}) with {number} ({answer})"));
    }
    lines
}
