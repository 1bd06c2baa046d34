//! Trying a straight move before cutting.

use crate::{Body, Refusal, Report, Settings, Travel, raw, refusal::accepted};

/// Tries a move. Refusals 1 to 5, 18, 6, 9, 10 and 11 over section, body, clearance, offsets and settings; 19 for no step or
/// more than 4,096; then of the first refused placement 4, 5, 9, 10 or 11.
pub fn try_move(
    section: &[f64],
    body: Body,
    clearance: f64,
    travel: Travel,
    settings: Settings,
) -> Result<Report, Refusal> {
    let (kind, numbers) = body.given();
    let Travel { start, end, steps } = travel;
    let Settings { tolerance, most, intervals } = settings;
    let mut report = Report { distance: 0.0, step: 0, colliding_step: None, boxes: 0 };
    let (mut collides, mut colliding_step) = (0, 0);
    // SAFETY: the lists are valid for their counts, and the places are distinct.
    accepted(unsafe {
        raw::jorghipa_move(
            section.as_ptr(),
            section.len(),
            kind,
            numbers.as_ptr(),
            numbers.len(),
            clearance,
            start.x,
            start.y,
            start.z,
            end.x,
            end.y,
            end.z,
            steps,
            tolerance,
            most,
            intervals,
            &mut report.distance,
            &mut report.step,
            &mut collides,
            &mut colliding_step,
            &mut report.boxes,
        )
    })?;
    report.colliding_step = (collides != 0).then_some(colliding_step);
    Ok(report)
}
