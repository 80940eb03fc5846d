//! Playback streams.

use crate::error::{Result, count, done};
use crate::handle::Handle;
use crate::params::{HwParams, SwParams};
use crate::ring::Ring;
use crate::state::{State, Status};
use dmixlab_sys as sys;
use std::fmt;

/// A playback stream at one place of a ring, as a `snd_pcm_t` that is opened without waiting
/// (`SND_PCM_NONBLOCK`).
///
/// One thread has it at a time, and it may go from one thread to another. When it is dropped, its
/// place goes back to the ring: what it placed there is played, and the place is free again once
/// this is done. Dropping gives memory back, so let a thread do it that has no deadline.
///
/// ```
/// use dmixlab::{Client, Error};
/// use std::thread;
/// use std::time::Duration;
///
/// /// Plays samples of so many channels to their end.
/// fn play(client: &mut Client, channels: usize, mut samples: &[i16]) -> dmixlab::Result<()> {
///     while !samples.is_empty() {
///         match client.writei(samples) {
///             Ok(frames) => samples = &samples[frames * channels..],
///             Err(Error::Again) => thread::sleep(Duration::from_millis(1)),
///             Err(Error::Xrun) => client.prepare()?,
///             Err(error) => return Err(error),
///         }
///     }
///     while client.drain() == Err(Error::Again) {
///         thread::sleep(Duration::from_millis(1));
///     }
///     Ok(())
/// }
/// ```
///
/// # Errors
///
/// Each call that can be refused answers [`Error::BadState`](crate::Error::BadState) in a state
/// that doesn't allow it, [`Error::NoDevice`](crate::Error::NoDevice) in `Disconnected`, and, where
/// it moves or counts frames, [`Error::Xrun`](crate::Error::Xrun) in `Xrun`; it changes nothing
/// then. A call that finds the card unplugged leads to `Disconnected` with `NoDevice`. Further
/// errors are named with each call.
pub struct Client {
    handle: Handle<sys::dmix_client_t>,
    ring: Ring,
}

impl Client {
    /// A client of this handle, opened at this ring.
    pub(crate) fn new(handle: Handle<sys::dmix_client_t>, ring: Ring) -> Client {
        Client { handle, ring }
    }

    /// The ring that it is a client of.
    pub fn ring(&self) -> &Ring {
        &self.ring
    }

    /// Sets the hardware parameters and prepares the stream (`snd_pcm_hw_params`), in `Open`,
    /// `Setup` and `Prepared`. Channel i of the client goes to the card's channel i. It takes
    /// memory; after an error the client is as it was.
    ///
    /// # Errors
    ///
    /// - [`Error::Invalid`](crate::Error::Invalid): the ring can't have these.
    /// - [`Error::Memory`](crate::Error::Memory): no memory is left.
    pub fn hw_params(&mut self, params: &HwParams) -> Result<()> {
        let params = params.to_sys();
        // SAFETY: the handle is this call's alone, and the parameters are lent for it.
        done(unsafe { sys::dmix_c_hw_params(self.handle.pointer(), &params) })
    }

    /// Sets the hardware parameters as [`Client::hw_params`] does, but channel i of the client goes
    /// to the card's channel `bindings[i]` (`bindings` of a `pcm_dmix` in `asound.conf`).
    ///
    /// ```
    /// use dmixlab::{HwParams, Ring, RingParams};
    ///
    /// # fn main() -> dmixlab::Result<()> {
    /// # let (channels, rate, period_size) = (2, 48_000, 64);
    /// # let params = RingParams { channels, rate, period_size, buffer_size: 1024, clients: 1 };
    /// # let (ring, mut card) = Ring::open(&params)?;
    /// # let stereo = HwParams { channels, rate, period_size, buffer_size: 512 };
    /// # let mut client = ring.open_client()?;
    /// // left and right are exchanged
    /// client.hw_params_bindings(&stereo, &[1, 0])?;
    /// client.writei(&[10, 20])?;
    ///
    /// let mut out = [0; 2 * 65];
    /// card.play(&mut out)?;
    /// assert_eq!(out[128..], [20, 10]);
    /// # Ok(())
    /// # }
    /// ```
    ///
    /// # Errors
    ///
    /// Those of [`Client::hw_params`], and
    ///
    /// - [`Error::Invalid`](crate::Error::Invalid): there isn't one binding for each channel, two
    ///   are to one channel of the card, or one is to a channel that it hasn't.
    pub fn hw_params_bindings(&mut self, params: &HwParams, bindings: &[u32]) -> Result<()> {
        let params = params.to_sys();
        let (from, length) = (bindings.as_ptr(), bindings.len());
        // SAFETY: the handle is this call's alone, and the parameters and the `length` bindings are
        // lent for it.
        done(unsafe {
            sys::dmix_c_hw_params_bindings(self.handle.pointer(), &params, from, length)
        })
    }

    /// Gives the hardware parameters up (`snd_pcm_hw_free`): `Open`, from `Setup` or `Prepared`.
    /// The client keeps the buffer's memory until the next `hw_params`, or until it is dropped.
    ///
    /// # Errors
    ///
    /// Those of [each call](Client#errors).
    pub fn hw_free(&mut self) -> Result<()> {
        // SAFETY: the handle is this call's alone.
        done(unsafe { sys::dmix_c_hw_free(self.handle.pointer()) })
    }

    /// Sets the software parameters (`snd_pcm_sw_params`), in every state but `Open` and
    /// `Disconnected`.
    ///
    /// # Errors
    ///
    /// - [`Error::Invalid`](crate::Error::Invalid): one is 0, or a threshold is past the boundary
    ///   of the buffer.
    pub fn sw_params(&mut self, params: &SwParams) -> Result<()> {
        let params = params.to_sys();
        // SAFETY: the handle is this call's alone, and the parameters are lent for it.
        done(unsafe { sys::dmix_c_sw_params(self.handle.pointer(), &params) })
    }

    /// Prepares the stream (`snd_pcm_prepare`): `Prepared`, from `Setup`, `Prepared` or `Xrun`.
    /// What isn't placed in the ring is discarded.
    ///
    /// # Errors
    ///
    /// Those of [each call](Client#errors).
    pub fn prepare(&mut self) -> Result<()> {
        // SAFETY: the handle is this call's alone.
        done(unsafe { sys::dmix_c_prepare(self.handle.pointer()) })
    }

    /// Starts the stream (`snd_pcm_start`): `Running`, from `Prepared`. Its first frame is one
    /// period past the card's position, or right after the last frame that it placed before, where
    /// that is later.
    ///
    /// # Errors
    ///
    /// - [`Error::Xrun`](crate::Error::Xrun): nothing is written, and the state stays; or a frame
    ///   came too late, and it is `Xrun`.
    pub fn start(&mut self) -> Result<()> {
        // SAFETY: the handle is this call's alone.
        done(unsafe { sys::dmix_c_start(self.handle.pointer()) })
    }

    /// Stops the stream (`snd_pcm_drop`): `Setup`, from every state but `Open` and `Disconnected`.
    /// What isn't placed in the ring is discarded, and what is placed is played.
    ///
    /// # Errors
    ///
    /// Those of [each call](Client#errors).
    pub fn drop_pending(&mut self) -> Result<()> {
        // SAFETY: the handle is this call's alone.
        done(unsafe { sys::dmix_c_drop(self.handle.pointer()) })
    }

    /// Plays what is written, and then stops the stream (`snd_pcm_drain`), in every state but
    /// `Open`, `Paused` and `Disconnected`. It doesn't wait: call it again until it is `Ok`, which
    /// says that all is played and the state is `Setup`.
    ///
    /// # Errors
    ///
    /// - [`Error::Again`](crate::Error::Again): it isn't done yet, and the state is `Draining`.
    /// - [`Error::Xrun`](crate::Error::Xrun): a frame came too late.
    pub fn drain(&mut self) -> Result<()> {
        // SAFETY: the handle is this call's alone.
        done(unsafe { sys::dmix_c_drain(self.handle.pointer()) })
    }

    /// Pauses the stream, in `Running`, or resumes it, in `Paused` (`snd_pcm_pause`).
    ///
    /// What is placed in the ring is played during a pause. What isn't begins with the resume, as
    /// by a start; where nothing is left the resume leads to `Prepared`.
    ///
    /// # Errors
    ///
    /// - [`Error::Xrun`](crate::Error::Xrun): a frame came too late.
    pub fn pause(&mut self, enable: bool) -> Result<()> {
        // SAFETY: the handle is this call's alone.
        done(unsafe { sys::dmix_c_pause(self.handle.pointer(), enable) })
    }

    /// The state (`snd_pcm_state`).
    pub fn state(&mut self) -> State {
        // SAFETY: the handle is this call's alone.
        State::of_number(unsafe { sys::dmix_c_state(self.handle.pointer()) })
    }

    /// The state, the available frames, the delay and the card's position (`snd_pcm_status`), in
    /// every state. It does what [`Client::avail_update`] does, so that it loads the position once,
    /// in `Running` and `Draining`, and what it finds shows in the state.
    pub fn status(&mut self) -> Status {
        let mut status = sys::dmix_status_t::default();
        // SAFETY: the handle is this call's alone, and so is `status`.
        unsafe { sys::dmix_c_status(self.handle.pointer(), &mut status) };
        Status::from_sys(&status)
    }

    /// Writes whole interleaved frames, and answers how many were taken (`snd_pcm_writei`). It
    /// doesn't wait, takes no lock and no memory and makes no system call.
    ///
    /// In `Prepared` a write that reaches the start threshold starts the stream. That is the first
    /// frame, unless `sw_params` set another one. A stream in `Prepared` that is full below its
    /// start threshold takes 0 frames, until [`Client::start`] starts it.
    ///
    /// # Errors
    ///
    /// - [`Error::Again`](crate::Error::Again): no frame can be taken now. What waited in the
    ///   client is placed in the ring, as far as there is room.
    /// - [`Error::Xrun`](crate::Error::Xrun): all that was written is played, or a frame came too
    ///   late; the stream goes on after [`Client::prepare`]. None of these frames counts as taken,
    ///   but those before the late one may be placed, and are played then.
    /// - [`Error::Invalid`](crate::Error::Invalid): the samples make no whole frames, or more than
    ///   4,194,304.
    pub fn writei(&mut self, samples: &[i16]) -> Result<usize> {
        let (from, length) = (samples.as_ptr(), samples.len());
        // SAFETY: the handle is this call's alone, and the `length` samples are lent for it.
        count(unsafe { sys::dmix_c_writei(self.handle.pointer(), from, length) })
            .map(|frames| frames as usize)
    }

    /// How many frames can be written now (`snd_pcm_avail`), in `Prepared`, `Running`, `Draining`
    /// and `Paused`.
    ///
    /// In `Running` and `Draining` it first loads the card's position, and places in the ring what
    /// waits in the client; a stream in `Draining` that has played all is in `Setup` then, and the
    /// answer is the buffer size. In `Prepared` and `Paused` it is by the last load.
    ///
    /// # Errors
    ///
    /// - [`Error::Xrun`](crate::Error::Xrun): as of [`Client::writei`].
    pub fn avail_update(&mut self) -> Result<u64> {
        // SAFETY: the handle is this call's alone.
        count(unsafe { sys::dmix_c_avail_update(self.handle.pointer()) })
    }

    /// How many frames are played before the one that is written next (`snd_pcm_delay`), after the
    /// same as of [`Client::avail_update`]: in `Prepared` all that are written.
    ///
    /// # Errors
    ///
    /// - [`Error::Xrun`](crate::Error::Xrun): as of [`Client::writei`].
    pub fn delay(&mut self) -> Result<u64> {
        // SAFETY: the handle is this call's alone.
        count(unsafe { sys::dmix_c_delay(self.handle.pointer()) })
    }

    /// How many of the last frames [`Client::rewind`] would take back (`snd_pcm_rewindable`), in
    /// `Prepared` and `Running`: those that aren't played. A frame that was placed where one was
    /// taken back from the ring doesn't count, nor do those before it that are placed.
    ///
    /// # Errors
    ///
    /// - [`Error::Xrun`](crate::Error::Xrun): all that was written is played.
    pub fn rewindable(&mut self) -> Result<u64> {
        // SAFETY: the handle is this call's alone.
        count(unsafe { sys::dmix_c_rewindable(self.handle.pointer()) })
    }

    /// Takes back the last `frames` frames, or as many of them as [`Client::rewindable`] says, and
    /// answers how many (`snd_pcm_rewind`), in `Prepared` and `Running`. The next write continues
    /// where they began. Where no frame is left that isn't played, the next call that loads the
    /// position is an underrun, by the default stop threshold.
    ///
    /// # Errors
    ///
    /// - [`Error::Xrun`](crate::Error::Xrun): all that was written is played, or the card took a
    ///   frame before it could be taken back.
    pub fn rewind(&mut self, frames: u64) -> Result<u64> {
        // SAFETY: the handle is this call's alone.
        count(unsafe { sys::dmix_c_rewind(self.handle.pointer(), frames) })
    }
}

impl fmt::Debug for Client {
    fn fmt(&self, f: &mut fmt::Formatter<'_>) -> fmt::Result {
        f.debug_struct("Client").finish_non_exhaustive()
    }
}

impl Drop for Client {
    fn drop(&mut self) {
        // SAFETY: the handle is this call's alone.
        let _closed = unsafe { sys::dmix_c_client_close(self.handle.pointer()) };
    }
}
