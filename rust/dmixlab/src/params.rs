//! What rings and streams are set up with.

use dmixlab_sys as sys;

/// What a ring is made of.
#[derive(Clone, Copy, Debug, PartialEq, Eq)]
pub struct RingParams {
    /// How many channels the card has, 1 to 8.
    pub channels: u32,
    /// The card's rate in frames a second, at least 1. Each stream has the same.
    pub rate: u32,
    /// The card's period in frames, from 1 to one less than the buffer. The card's position is
    /// published at each multiple of it, and a client starts one period past the position.
    pub period_size: u32,
    /// The ring's length in frames, 64 to 16,384.
    pub buffer_size: u32,
    /// How many clients can be open at a time, 1 to 64.
    pub clients: u32,
}

impl RingParams {
    /// The parameters as the C library has them.
    pub(crate) fn to_sys(self) -> sys::dmix_ring_params_t {
        sys::dmix_ring_params_t {
            channels: self.channels,
            rate: self.rate,
            period_size: self.period_size,
            buffer_size: self.buffer_size,
            clients: self.clients,
        }
    }
}

/// The hardware parameters of a stream (`snd_pcm_hw_params_t`).
#[derive(Clone, Copy, Debug, PartialEq, Eq)]
pub struct HwParams {
    /// How many channels a frame has, from 1 to as many as the card has.
    pub channels: u32,
    /// The ring's rate, in frames a second.
    pub rate: u32,
    /// The period in frames, from 1 to the buffer size.
    pub period_size: u32,
    /// The buffer in frames, 1 to 16,384.
    pub buffer_size: u32,
}

impl HwParams {
    /// The parameters as the C library has them.
    pub(crate) fn to_sys(self) -> sys::dmix_hw_params_t {
        sys::dmix_hw_params_t {
            channels: self.channels,
            rate: self.rate,
            period_size: self.period_size,
            buffer_size: self.buffer_size,
        }
    }
}

/// The software parameters of a stream (`snd_pcm_sw_params_t`).
///
/// `hw_params` sets a start threshold of 1, a stop threshold of the buffer size, and an `avail_min`
/// of the period size.
#[derive(Clone, Copy, Debug, PartialEq, Eq)]
pub struct SwParams {
    /// How many written frames start a prepared client, at least 1.
    pub start_threshold: u64,
    /// How many available frames are an xrun, at least 1.
    pub stop_threshold: u64,
    /// How many available frames a program waits for, at least 1. No call of this library waits, so
    /// none reads it.
    pub avail_min: u64,
}

impl SwParams {
    /// The parameters as the C library has them.
    pub(crate) fn to_sys(self) -> sys::dmix_sw_params_t {
        sys::dmix_sw_params_t {
            start_threshold: self.start_threshold,
            stop_threshold: self.stop_threshold,
            avail_min: self.avail_min,
        }
    }
}
