//! Whether anything of an assembly comes closer to the section than a clearance.

use crate::{Body, Refusal, raw, refusal::accepted};

/// Whether any of up to 64 bodies comes closer than the clearance: that of judging each by its verdict. Refusals 1 to 6 of
/// section and clearance, 17 for more bodies, then the first bad body's, 4, 5, 9, 10 or 11, also where one before it collides.
pub fn any_hit(section: &[f64], bodies: &[Body], clearance: f64) -> Result<bool, Refusal> {
    // One body over 64 is enough to be refused for their number, and none of them is looked at then.
    let count = bodies.len().min(65);
    let (mut kinds, mut numbers) = ([0; 65], [[0.0; 7]; 65]);
    for (i, body) in bodies.iter().take(count).enumerate() {
        (kinds[i], numbers[i]) = body.given();
    }
    let (list, numbers, mut hit) = (section.as_ptr(), numbers.as_flattened(), 0);
    // SAFETY: every list is valid for its count, and the place is distinct from them.
    accepted(unsafe {
        raw::jorghipa_any_hit(
            list,
            section.len(),
            kinds.as_ptr(),
            count,
            numbers.as_ptr(),
            7 * count,
            clearance,
            &mut hit,
        )
    })?;
    Ok(hit != 0)
}
