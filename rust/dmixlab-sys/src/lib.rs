//! Declarations of `libdmixlab.a`, a mix ring and a capture ring between the threads of a process,
//! as `dmixlab.h` has them.
//!
//! What each call does, what it asks and what it answers is said in that header, at the call of the
//! same name without `c_`. Those calls are inline functions of C; these are what they call. They
//! ask that no pointer is null, that two handles are different ones, and that buffers have no part
//! in common, and count samples where the header counts frames. The crate `dmixlab` is the safe way
//! to use them.
#![no_std]
#![allow(non_camel_case_types)]
#![deny(missing_docs)]

use core::ffi::c_void;
use core::ptr;

/// Declares a kind of handle.
macro_rules! handle {
    ($(#[$doc:meta])* $name:ident) => {
        $(#[$doc])*
        ///
        /// Its fields belong to the library. All of it is zero while it is closed.
        #[repr(C)]
        #[derive(Debug)]
        pub struct $name {
            /// 0: closed.
            pub kind_: u64,
            /// What the handle stands for.
            pub held_: *mut c_void,
            /// How many channels a frame has, for the functions of the header; 0: closed.
            pub channels_: u64,
        }

        impl $name {
            /// A closed handle (`DMIX_CLOSED`).
            pub const CLOSED: $name = $name {
                kind_: 0,
                held_: ptr::null_mut(),
                channels_: 0,
            };
        }
    };
}

handle! {
    /// The places of a ring.
    dmix_ring_t
}
handle! {
    /// The card's side of a ring.
    dmix_card_t
}
handle! {
    /// A playback stream at one place of a ring.
    dmix_client_t
}
handle! {
    /// A capture stream of a ring that captures.
    dmix_reader_t
}

/// What a ring is made of.
#[repr(C)]
#[derive(Clone, Copy, Debug)]
pub struct dmix_ring_params_t {
    /// 1 to 8.
    pub channels: u32,
    /// In frames a second, at least 1.
    pub rate: u32,
    /// In frames, 1 to `buffer_size - 1`.
    pub period_size: u32,
    /// In frames, 64 to 16384.
    pub buffer_size: u32,
    /// How many clients can be open at a time, 1 to 64.
    pub clients: u32,
}

/// The hardware parameters of a stream (`snd_pcm_hw_params_t`).
#[repr(C)]
#[derive(Clone, Copy, Debug)]
pub struct dmix_hw_params_t {
    /// From 1 to as many as the ring has.
    pub channels: u32,
    /// The ring's, in frames a second.
    pub rate: u32,
    /// In frames, 1 to `buffer_size`.
    pub period_size: u32,
    /// In frames, 1 to 16384.
    pub buffer_size: u32,
}

/// The software parameters of a stream (`snd_pcm_sw_params_t`), in frames.
#[repr(C)]
#[derive(Clone, Copy, Debug)]
pub struct dmix_sw_params_t {
    /// How many frames start a prepared stream.
    pub start_threshold: u64,
    /// How many available frames are an xrun.
    pub stop_threshold: u64,
    /// How many available frames a program waits for.
    pub avail_min: u64,
}

/// What a client or a reader is at a moment (`snd_pcm_status_t`).
#[repr(C)]
#[derive(Clone, Copy, Debug, Default)]
pub struct dmix_status_t {
    /// As `snd_pcm_state_t` is numbered.
    pub state: u64,
    /// How many frames can be written, or read.
    pub avail: u64,
    /// How many frames are played before the one that is written next; of a reader `avail` again.
    pub delay: u64,
    /// The card's position that was seen last, a frame number.
    pub position: u64,
}

#[allow(missing_docs, reason = "`dmixlab.h` documents the calls")]
unsafe extern "C" {
    pub fn dmix_c_ring_open(
        ring: *mut dmix_ring_t,
        card: *mut dmix_card_t,
        params: *const dmix_ring_params_t,
    ) -> i64;
    pub fn dmix_c_duplex_open(
        ring: *mut dmix_ring_t,
        card: *mut dmix_card_t,
        params: *const dmix_ring_params_t,
    ) -> i64;
    pub fn dmix_c_ring_free(ring: *mut dmix_ring_t) -> i64;

    pub fn dmix_c_card_play(card: *mut dmix_card_t, out: *mut i16, samples: usize) -> i64;
    pub fn dmix_c_card_run(
        card: *mut dmix_card_t,
        captured: *const i16,
        captured_samples: usize,
        out: *mut i16,
        samples: usize,
    ) -> i64;
    pub fn dmix_c_card_unplug(card: *mut dmix_card_t) -> i64;
    pub fn dmix_c_card_free(card: *mut dmix_card_t) -> i64;

    pub fn dmix_c_client_open(client: *mut dmix_client_t, ring: *mut dmix_ring_t) -> i64;
    pub fn dmix_c_client_close(client: *mut dmix_client_t) -> i64;
    pub fn dmix_c_hw_params(client: *mut dmix_client_t, params: *const dmix_hw_params_t) -> i64;
    pub fn dmix_c_hw_params_bindings(
        client: *mut dmix_client_t,
        params: *const dmix_hw_params_t,
        bindings: *const u32,
        count: usize,
    ) -> i64;
    pub fn dmix_c_hw_free(client: *mut dmix_client_t) -> i64;
    pub fn dmix_c_sw_params(client: *mut dmix_client_t, params: *const dmix_sw_params_t) -> i64;
    pub fn dmix_c_prepare(client: *mut dmix_client_t) -> i64;
    pub fn dmix_c_start(client: *mut dmix_client_t) -> i64;
    pub fn dmix_c_drop(client: *mut dmix_client_t) -> i64;
    pub fn dmix_c_drain(client: *mut dmix_client_t) -> i64;
    pub fn dmix_c_pause(client: *mut dmix_client_t, enable: bool) -> i64;
    pub fn dmix_c_state(client: *mut dmix_client_t) -> i64;
    pub fn dmix_c_status(client: *mut dmix_client_t, status: *mut dmix_status_t) -> i64;
    pub fn dmix_c_writei(client: *mut dmix_client_t, samples: *const i16, count: usize) -> i64;
    pub fn dmix_c_avail_update(client: *mut dmix_client_t) -> i64;
    pub fn dmix_c_delay(client: *mut dmix_client_t) -> i64;
    pub fn dmix_c_rewindable(client: *mut dmix_client_t) -> i64;
    pub fn dmix_c_rewind(client: *mut dmix_client_t, frames: u64) -> i64;

    pub fn dmix_c_reader_open(reader: *mut dmix_reader_t, ring: *mut dmix_ring_t) -> i64;
    pub fn dmix_c_reader_close(reader: *mut dmix_reader_t) -> i64;
    pub fn dmix_c_reader_hw_params(
        reader: *mut dmix_reader_t,
        params: *const dmix_hw_params_t,
    ) -> i64;
    pub fn dmix_c_reader_hw_params_bindings(
        reader: *mut dmix_reader_t,
        params: *const dmix_hw_params_t,
        bindings: *const u32,
        count: usize,
    ) -> i64;
    pub fn dmix_c_reader_hw_free(reader: *mut dmix_reader_t) -> i64;
    pub fn dmix_c_reader_sw_params(
        reader: *mut dmix_reader_t,
        params: *const dmix_sw_params_t,
    ) -> i64;
    pub fn dmix_c_reader_prepare(reader: *mut dmix_reader_t) -> i64;
    pub fn dmix_c_reader_start(reader: *mut dmix_reader_t) -> i64;
    pub fn dmix_c_reader_drop(reader: *mut dmix_reader_t) -> i64;
    pub fn dmix_c_reader_state(reader: *mut dmix_reader_t) -> i64;
    pub fn dmix_c_reader_status(reader: *mut dmix_reader_t, status: *mut dmix_status_t) -> i64;
    pub fn dmix_c_reader_readi(reader: *mut dmix_reader_t, samples: *mut i16, count: usize) -> i64;
    pub fn dmix_c_reader_avail_update(reader: *mut dmix_reader_t) -> i64;
}
