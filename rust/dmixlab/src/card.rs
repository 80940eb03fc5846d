//! The card's side of a ring.

use crate::error::{Result, count};
use crate::handle::Handle;
use dmixlab_sys as sys;
use std::fmt;

/// The card's side of a ring, for the one thread that plays: a sound card's callback or loop.
///
/// [`Card::play`] takes no lock and no memory and makes no system call, so it fits a thread that
/// has a deadline.
///
/// ```
/// use dmixlab::{Ring, RingParams};
///
/// # fn main() -> dmixlab::Result<()> {
/// let (_ring, mut card) = Ring::open(&RingParams {
///     channels: 2,
///     rate: 48_000,
///     period_size: 256,
///     buffer_size: 2048,
///     clients: 8,
/// })?;
///
/// // what a sound card's library calls for each buffer that it needs
/// let mut callback = move |data: &mut [i16]| {
///     if card.play(data).is_err() {
///         data.fill(0);
///     }
/// };
/// callback(&mut [0; 512]);
/// # Ok(())
/// # }
/// ```
pub struct Card {
    handle: Handle<sys::dmix_card_t>,
    channels: usize,
}

impl Card {
    /// A card of this handle, with so many channels.
    pub(crate) fn new(handle: Handle<sys::dmix_card_t>, channels: usize) -> Card {
        Card { handle, channels }
    }

    /// How many channels a frame has.
    pub fn channels(&self) -> usize {
        self.channels
    }

    /// Takes as many whole mixed frames as `out` has room for, interleaved, and answers how many.
    /// Samples of `out` that make no whole frame stay. The card's position is published at each
    /// multiple of its period, and at the end.
    ///
    /// Each sample is the sum of exactly the samples that clients placed there, saturated once.
    ///
    /// # Errors
    ///
    /// - [`Error::LapEnd`](crate::Error::LapEnd): the ring's end, after 4,294,967,295 laps, is
    ///   before the last frame; the frames before it are played.
    pub fn play(&mut self, out: &mut [i16]) -> Result<usize> {
        let (to, length) = (out.as_mut_ptr(), out.len());
        // SAFETY: the handle is this call's alone, and so are the `length` samples.
        count(unsafe { sys::dmix_c_card_play(self.handle.pointer(), to, length) })
            .map(|frames| frames as usize)
    }

    /// Unplugs the card: from now on each client that loads the position is `Disconnected`, with
    /// [`Error::NoDevice`](crate::Error::NoDevice). What is placed can still be taken.
    pub fn unplug(&mut self) {
        // SAFETY: the handle is this call's alone.
        unsafe { sys::dmix_c_card_unplug(self.handle.pointer()) };
    }
}

impl fmt::Debug for Card {
    fn fmt(&self, f: &mut fmt::Formatter<'_>) -> fmt::Result {
        f.debug_struct("Card")
            .field("channels", &self.channels)
            .finish_non_exhaustive()
    }
}

impl Drop for Card {
    fn drop(&mut self) {
        // SAFETY: the handle is this call's alone.
        let _freed = unsafe { sys::dmix_c_card_free(self.handle.pointer()) };
    }
}
