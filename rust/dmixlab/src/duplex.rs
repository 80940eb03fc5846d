//! The card's side of a ring that captures too.

use crate::error::{Result, count};
use crate::handle::Handle;
use dmixlab_sys as sys;
use std::fmt;

/// The card's side of a ring that captures ([`Ring::open_duplex`](crate::Ring::open_duplex)), for
/// the one thread that captures and plays: a sound card's duplex callback or loop.
///
/// [`DuplexCard::run`] takes no lock and no memory and makes no system call, so it fits a thread
/// that has a deadline.
///
/// ```
/// use dmixlab::{HwParams, Ring, RingParams};
///
/// # fn main() -> dmixlab::Result<()> {
/// let (ring, mut card) = Ring::open_duplex(&RingParams {
///     channels: 1,
///     rate: 48_000,
///     period_size: 64,
///     buffer_size: 1024,
///     clients: 8,
/// })?;
/// let params = HwParams { channels: 1, rate: 48_000, period_size: 64, buffer_size: 512 };
/// let mut reader = ring.open_reader()?;
/// reader.hw_params(&params)?;
/// reader.start()?;
///
/// let (microphone, mut loudspeaker) = ([5; 64], [9; 64]);
/// assert_eq!(card.run(&microphone, &mut loudspeaker)?, 64);
///
/// let mut heard = [0; 100];
/// assert_eq!(reader.readi(&mut heard)?, 64);
/// assert_eq!(heard[..64], microphone);
/// assert_eq!(loudspeaker, [0; 64]);
/// # Ok(())
/// # }
/// ```
pub struct DuplexCard {
    handle: Handle<sys::dmix_card_t>,
    channels: usize,
}

impl DuplexCard {
    /// A card of this handle, with so many channels.
    pub(crate) fn new(handle: Handle<sys::dmix_card_t>, channels: usize) -> DuplexCard {
        DuplexCard { handle, channels }
    }

    /// How many channels a frame has.
    pub fn channels(&self) -> usize {
        self.channels
    }

    /// Hands over captured frames, and takes as many mixed ones, all interleaved; answers how many.
    /// Each captured frame is stored for the readers before the mixed one of the same number is
    /// taken. The card's position is published at each multiple of its period, and at the end, to
    /// the clients and then to the readers.
    ///
    /// # Errors
    ///
    /// - [`Error::Invalid`](crate::Error::Invalid): the buffers aren't of equally many samples, or
    ///   these make no whole frames.
    /// - [`Error::LapEnd`](crate::Error::LapEnd): the rings' end, after 4,294,967,295 laps, is
    ///   before the last frame; the frames before it are captured and played.
    pub fn run(&mut self, captured: &[i16], out: &mut [i16]) -> Result<usize> {
        let (from, given) = (captured.as_ptr(), captured.len());
        let (to, length) = (out.as_mut_ptr(), out.len());
        // SAFETY: the handle is this call's alone, and so are the `length` samples; the `given`
        // ones are lent for it.
        count(unsafe { sys::dmix_c_card_run(self.handle.pointer(), from, given, to, length) })
            .map(|frames| frames as usize)
    }

    /// Unplugs the card: from now on each client and each reader that loads the position is
    /// `Disconnected`, with [`Error::NoDevice`](crate::Error::NoDevice). What is placed can still
    /// be taken.
    pub fn unplug(&mut self) {
        // SAFETY: the handle is this call's alone.
        unsafe { sys::dmix_c_card_unplug(self.handle.pointer()) };
    }
}

impl fmt::Debug for DuplexCard {
    fn fmt(&self, f: &mut fmt::Formatter<'_>) -> fmt::Result {
        f.debug_struct("DuplexCard")
            .field("channels", &self.channels)
            .finish_non_exhaustive()
    }
}

impl Drop for DuplexCard {
    fn drop(&mut self) {
        // SAFETY: the handle is this call's alone.
        let _freed = unsafe { sys::dmix_c_card_free(self.handle.pointer()) };
    }
}
