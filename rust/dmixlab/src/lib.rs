//! A mix ring and a capture ring between the threads of a process, as ALSA's dmix and dsnoop are
//! between programs.
//!
//! Several threads each have a [`Client`] and write interleaved frames of 16 bits. One thread, the
//! sound card's callback or loop, has the [`Card`] and takes whole mixed frames. Each sample that
//! it takes is the sum of exactly the samples that clients placed there, saturated once, at the
//! end.
//!
//! ```
//! use dmixlab::{HwParams, Ring, RingParams};
//! use std::thread;
//!
//! # fn main() -> dmixlab::Result<()> {
//! let (ring, mut card) = Ring::open(&RingParams {
//!     channels: 1,
//!     rate: 48_000,
//!     period_size: 64,
//!     buffer_size: 1024,
//!     clients: 4,
//! })?;
//! let params = HwParams { channels: 1, rate: 48_000, period_size: 64, buffer_size: 512 };
//!
//! thread::scope(|scope| {
//!     for sample in [20_000, 15_000, -100] {
//!         let (ring, params) = (&ring, &params);
//!         scope.spawn(move || -> dmixlab::Result<()> {
//!             let mut client = ring.open_client()?;
//!             client.hw_params(params)?;
//!             client.writei(&[sample; 64])?;
//!             Ok(())
//!         });
//!     }
//! });
//!
//! // a client starts one period past the card's position
//! let mut out = [0; 128];
//! assert_eq!(card.play(&mut out)?, 128);
//! assert_eq!(out[..64], [0; 64]);
//! assert_eq!(out[64..], [32_767; 64]);
//! # Ok(())
//! # }
//! ```
//!
//! # As a sound card's callback
//!
//! [`Card::play`] takes no lock and no memory and makes no system call, and a card is [`Send`], so
//! it goes into the callback of a library like `cpal`, whose streams ask for samples by a closure:
//!
//! ```
//! # use dmixlab::{Card, Ring, RingParams};
//! # struct OutputCallbackInfo;
//! # fn build_output_stream(_: impl FnMut(&mut [i16], &OutputCallbackInfo) + Send + 'static) {}
//! # fn play(mut card: Card) {
//! build_output_stream(move |data: &mut [i16], _: &OutputCallbackInfo| {
//!     if card.play(data).is_err() {
//!         data.fill(0);
//!     }
//! });
//! # }
//! ```
//!
//! The example `callback` is a whole program of this shape.
//!
//! # Capture
//!
//! A ring that is opened by [`Ring::open_duplex`] captures too: its [`DuplexCard`] is handed what
//! the sound card captured, and any number of [`Reader`]s each read all of it.
//!
//! # Calls
//!
//! Calls are named and answer as alsa-lib's calls of a stream that is opened with
//! `SND_PCM_NONBLOCK`: none waits. A client that can't write now gets [`Error::Again`], and sleeps
//! or yields before it tries again; one that wrote too late gets [`Error::Xrun`], and goes on after
//! [`Client::prepare`]. No call panics.
//!
//! # Threads
//!
//! [`Ring`] is [`Sync`], and cheap to clone. [`Card`], [`DuplexCard`], [`Client`] and [`Reader`]
//! are [`Send`], and each is used by one thread at a time, as the C library asks; different ones
//! are used at the same time. A client or a reader keeps its ring, so that it can't outlive it.
//!
//! ```compile_fail,E0277
//! # fn is_shared<T: Sync>() {}
//! is_shared::<dmixlab::Client>();
//! ```
//! ```compile_fail,E0277
//! # fn is_shared<T: Sync>() {}
//! is_shared::<dmixlab::Reader>();
//! ```
//! ```compile_fail,E0277
//! # fn is_shared<T: Sync>() {}
//! is_shared::<dmixlab::Card>();
//! ```
//! ```compile_fail,E0277
//! # fn is_shared<T: Sync>() {}
//! is_shared::<dmixlab::DuplexCard>();
//! ```
//!
//! # What is proved
//!
//! The C library is compiled from Rattle, where each of its functions is proved: nothing undefined
//! happens, as long as the caller keeps what `dmixlab.h` asks, and the mix is the exact sum. This
//! crate keeps what is asked for every program without `unsafe`: handles are used by one call at a
//! time, and buffers are as long as is said, since samples are counted by slices, and not by the
//! handles' `channels_`. That isn't proved, and rests on the crate's few lines and on Rust's types.
//!
//! One duty is kept by the memory model and not by types: `dmixlab.h` names what may order the
//! calls of a handle in two threads, a mutex, the start or join of a thread, or an atomic with
//! `SeqCst`, as the toolchain does that the proofs rest on. Safe Rust always orders them, but a
//! channel or a `OnceLock` does so by a store with `Release` and a load with `Acquire`. In the
//! memory model of C++20, which is Rust's, a step before the store and a step after the load are
//! then in this order for `SeqCst` steps too, so that these are no weaker.
#![deny(missing_docs)]

mod card;
mod client;
mod duplex;
mod error;
mod handle;
mod params;
mod reader;
mod ring;
mod state;

pub use card::Card;
pub use client::Client;
pub use duplex::DuplexCard;
pub use error::{Error, Result};
pub use params::{HwParams, RingParams, SwParams};
pub use reader::Reader;
pub use ring::Ring;
pub use state::{State, Status};
