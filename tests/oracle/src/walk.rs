//! Document 01, "Chains and places", second paragraph: one event of a walk, with the failure steps of that event.

use crate::image::Image;

#[derive(Clone, Copy, PartialEq, Eq, Debug)]
pub struct Walked {
    pub place: usize,
    /// The failure steps of this one event.
    pub steps: u64,
}

/// From a place of the image, by one event.
pub fn step(image: &Image, place: usize, event: u8) -> Walked {
    let mut walked = Walked { place, steps: 0 };
    loop {
        if let Some(target) = image.target(walked.place, event) {
            walked.place = target;
            return walked;
        }
        if walked.place == 0 {
            // At place 0 with no edge the walk stays, without a step.
            return walked;
        }
        walked.place = image.fallback(walked.place);
        walked.steps += 1;
    }
}
