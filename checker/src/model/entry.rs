//! The C boundary: calls on an image buffer, answered by a number.

use super::answer::{Answer, Refusal};
use super::state::State;
use crate::call::{Call, Settings};
use crate::limits::IMAGE_BYTES;

/// "each as Restore, call, Save. The buffer must be exactly" 2,274 bytes, "else
/// 13, tested first; a refusal leaves it. The number returned is the refusal's,
/// or the answer['s]". Gives the number and the buffer's bytes after the call.
pub fn entry(image: &[u8], call: Call) -> (u64, Vec<u8>) {
    if image.len() != IMAGE_BYTES {
        return (Refusal::Image.number(), image.to_vec());
    }
    let (mut state, restored) = State::restore(image);
    match restored.and_then(|()| state.call(call)) {
        Ok(answer) => (answer.number(), state.image()),
        Err(refusal) => (refusal.number(), image.to_vec()),
    }
}

/// A first image: Setup, then Save, on a buffer as for any call: "exactly" 2,274
/// bytes, "else 13, tested first; a refusal leaves it". Gives the number and the
/// buffer's bytes after it.
pub fn first_image(buffer: &[u8], settings: &Settings) -> (u64, Vec<u8>) {
    if buffer.len() != IMAGE_BYTES {
        return (Refusal::Image.number(), buffer.to_vec());
    }
    match State::setup_by_rule(settings) {
        (state, Ok(answer)) => (answer.number(), state.image()),
        (_, Err(refusal)) => (refusal.number(), buffer.to_vec()),
    }
}

impl State {
    /// Makes the call that a `Call` names.
    pub fn call(&mut self, call: Call) -> Result<Answer, Refusal> {
        match call {
            Call::Attach {
                slot,
                file,
                pace,
                start,
                last,
            } => self.attach(slot, file, pace, start, last),
            Call::Detach { slot } => self.detach(slot),
            Call::Read { slot } => self.read(slot),
            Call::Arrive { file, page } => self.arrive(file, page),
            Call::Lost { file, page } => self.lost(file, page),
            Call::Prefetch => Ok(self.prefetch()),
            Call::Steal => Ok(self.steal()),
            Call::Run { turns } => self.run(turns),
            Call::Measure {
                slot,
                interval,
                blocked,
            } => self.measure(slot, interval, blocked),
        }
    }
}
