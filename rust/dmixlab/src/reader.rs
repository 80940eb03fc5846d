//! Capture streams.

use crate::error::{Result, count, done};
use crate::handle::Handle;
use crate::params::{HwParams, SwParams};
use crate::ring::Ring;
use crate::state::{State, Status};
use dmixlab_sys as sys;
use std::fmt;

/// A capture stream of a ring that captures, as a `snd_pcm_t` that is opened without waiting
/// (`SND_PCM_NONBLOCK`). Each reader reads all that the card captures from its start on.
///
/// One thread has it at a time, and it may go from one thread to another. Dropping gives memory
/// back, so let a thread do it that has no deadline.
///
/// ```
/// use dmixlab::{Error, Reader};
/// use std::thread;
/// use std::time::Duration;
///
/// /// Reads until a buffer is full of samples of so many channels.
/// fn record(reader: &mut Reader, channels: usize, mut room: &mut [i16]) -> dmixlab::Result<()> {
///     while !room.is_empty() {
///         match reader.readi(room) {
///             Ok(frames) => room = &mut room[frames * channels..],
///             Err(Error::Again) => thread::sleep(Duration::from_millis(1)),
///             Err(Error::Xrun) => reader.prepare()?,
///             Err(error) => return Err(error),
///         }
///     }
///     Ok(())
/// }
/// ```
///
/// # Errors
///
/// Each call that can be refused answers [`Error::BadState`](crate::Error::BadState) in a state
/// that doesn't allow it, [`Error::NoDevice`](crate::Error::NoDevice) in `Disconnected`, and, where
/// it moves or counts frames, [`Error::Xrun`](crate::Error::Xrun) in `Xrun`; it changes nothing
/// then. A call that finds the card unplugged leads to `Disconnected` with `NoDevice`. Further
/// errors are named with each call.
pub struct Reader {
    handle: Handle<sys::dmix_reader_t>,
    ring: Ring,
}

impl Reader {
    /// A reader of this handle, opened at this ring.
    pub(crate) fn new(handle: Handle<sys::dmix_reader_t>, ring: Ring) -> Reader {
        Reader { handle, ring }
    }

    /// The ring that it is a reader of.
    pub fn ring(&self) -> &Ring {
        &self.ring
    }

    /// Sets the hardware parameters and prepares the stream (`snd_pcm_hw_params`), in `Open`,
    /// `Setup` and `Prepared`. Channel i of the reader is the card's channel i. A reader has no
    /// buffer of its own: the buffer size is how many unread frames are an overrun, unless
    /// [`Reader::sw_params`] says another number. It takes memory; after an error the reader is as
    /// it was.
    ///
    /// # Errors
    ///
    /// - [`Error::Invalid`](crate::Error::Invalid): the ring can't have these.
    /// - [`Error::Memory`](crate::Error::Memory): no memory is left.
    pub fn hw_params(&mut self, params: &HwParams) -> Result<()> {
        let params = params.to_sys();
        // SAFETY: the handle is this call's alone, and the parameters are lent for it.
        done(unsafe { sys::dmix_c_reader_hw_params(self.handle.pointer(), &params) })
    }

    /// Sets the hardware parameters as [`Reader::hw_params`] does, but channel i of the reader is
    /// the card's channel `bindings[i]` (`bindings` of a `pcm_dsnoop` in `asound.conf`).
    ///
    /// # Errors
    ///
    /// Those of [`Reader::hw_params`], and
    ///
    /// - [`Error::Invalid`](crate::Error::Invalid): there isn't one binding for each channel, two
    ///   are to one channel of the card, or one is to a channel that it hasn't.
    pub fn hw_params_bindings(&mut self, params: &HwParams, bindings: &[u32]) -> Result<()> {
        let params = params.to_sys();
        let (from, length) = (bindings.as_ptr(), bindings.len());
        // SAFETY: the handle is this call's alone, and the parameters and the `length` bindings are
        // lent for it.
        done(unsafe {
            sys::dmix_c_reader_hw_params_bindings(self.handle.pointer(), &params, from, length)
        })
    }

    /// Gives the hardware parameters up (`snd_pcm_hw_free`): `Open`, from `Setup` or `Prepared`.
    ///
    /// # Errors
    ///
    /// Those of [each call](Reader#errors).
    pub fn hw_free(&mut self) -> Result<()> {
        // SAFETY: the handle is this call's alone.
        done(unsafe { sys::dmix_c_reader_hw_free(self.handle.pointer()) })
    }

    /// Sets the software parameters (`snd_pcm_sw_params`), in every state but `Open` and
    /// `Disconnected`.
    ///
    /// # Errors
    ///
    /// - [`Error::Invalid`](crate::Error::Invalid): one is 0, or a threshold is past the boundary
    ///   of the buffer.
    pub fn sw_params(&mut self, params: &SwParams) -> Result<()> {
        let params = params.to_sys();
        // SAFETY: the handle is this call's alone, and the parameters are lent for it.
        done(unsafe { sys::dmix_c_reader_sw_params(self.handle.pointer(), &params) })
    }

    /// Prepares the stream (`snd_pcm_prepare`): `Prepared`, from `Setup`, `Prepared` or `Xrun`.
    ///
    /// # Errors
    ///
    /// Those of [each call](Reader#errors).
    pub fn prepare(&mut self) -> Result<()> {
        // SAFETY: the handle is this call's alone.
        done(unsafe { sys::dmix_c_reader_prepare(self.handle.pointer()) })
    }

    /// Starts the stream (`snd_pcm_start`): `Running`, from `Prepared`. The first frame that it
    /// reads is the one that the card captures next.
    ///
    /// # Errors
    ///
    /// Those of [each call](Reader#errors).
    pub fn start(&mut self) -> Result<()> {
        // SAFETY: the handle is this call's alone.
        done(unsafe { sys::dmix_c_reader_start(self.handle.pointer()) })
    }

    /// Stops the stream (`snd_pcm_drop`): `Setup`, from every state but `Open` and `Disconnected`.
    ///
    /// # Errors
    ///
    /// Those of [each call](Reader#errors).
    pub fn drop_pending(&mut self) -> Result<()> {
        // SAFETY: the handle is this call's alone.
        done(unsafe { sys::dmix_c_reader_drop(self.handle.pointer()) })
    }

    /// The state (`snd_pcm_state`).
    pub fn state(&mut self) -> State {
        // SAFETY: the handle is this call's alone.
        State::of_number(unsafe { sys::dmix_c_reader_state(self.handle.pointer()) })
    }

    /// The state, the available frames, which are the delay too, and the card's position
    /// (`snd_pcm_status`), in every state. It does what [`Reader::avail_update`] does, so that it
    /// loads the position once, in `Running`. While the reader runs, the number of the frame that
    /// it reads next is the position less the available frames.
    pub fn status(&mut self) -> Status {
        let mut status = sys::dmix_status_t::default();
        // SAFETY: the handle is this call's alone, and so is `status`.
        unsafe { sys::dmix_c_reader_status(self.handle.pointer(), &mut status) };
        Status::from_sys(&status)
    }

    /// Reads as many whole interleaved frames as `out` has room for and the card captured, and
    /// answers how many (`snd_pcm_readi`). It doesn't wait, takes no lock and no memory and makes
    /// no system call.
    ///
    /// In `Prepared` a read that reaches the start threshold starts the stream, and answers
    /// [`Error::Again`](crate::Error::Again), since nothing is captured since then.
    ///
    /// # Errors
    ///
    /// After each of them but the last, `out` has nothing of use.
    ///
    /// - [`Error::Again`](crate::Error::Again): no frame can be read now.
    /// - [`Error::Xrun`](crate::Error::Xrun): as many frames are unread as the stop threshold says,
    ///   or a later one was stored over one of them; the stream goes on after [`Reader::prepare`].
    /// - [`Error::Invalid`](crate::Error::Invalid): the room isn't of whole frames, or for more
    ///   than 4,194,304.
    pub fn readi(&mut self, out: &mut [i16]) -> Result<usize> {
        let (to, length) = (out.as_mut_ptr(), out.len());
        // SAFETY: the handle is this call's alone, and so are the `length` samples.
        count(unsafe { sys::dmix_c_reader_readi(self.handle.pointer(), to, length) })
            .map(|frames| frames as usize)
    }

    /// How many frames can be read now (`snd_pcm_avail`): in `Running` by a load of the card's
    /// position, and in `Prepared` none.
    ///
    /// # Errors
    ///
    /// - [`Error::Xrun`](crate::Error::Xrun): as many frames are unread as the stop threshold says.
    pub fn avail_update(&mut self) -> Result<u64> {
        // SAFETY: the handle is this call's alone.
        count(unsafe { sys::dmix_c_reader_avail_update(self.handle.pointer()) })
    }

    /// How many captured frames wait to be read (`snd_pcm_delay`), which is what
    /// [`Reader::avail_update`] answers.
    ///
    /// # Errors
    ///
    /// Those of [`Reader::avail_update`].
    pub fn delay(&mut self) -> Result<u64> {
        self.avail_update()
    }
}

impl fmt::Debug for Reader {
    fn fmt(&self, f: &mut fmt::Formatter<'_>) -> fmt::Result {
        f.debug_struct("Reader").finish_non_exhaustive()
    }
}

impl Drop for Reader {
    fn drop(&mut self) {
        // SAFETY: the handle is this call's alone.
        let _closed = unsafe { sys::dmix_c_reader_close(self.handle.pointer()) };
    }
}
