//! What the tests share.
#![allow(
    dead_code,
    reason = "each test file is a crate of its own, and uses a part of this"
)]

use dmixlab::{Card, Client, HwParams, Ring, RingParams};

/// The period of rings and streams, in frames. A client starts one period past the card's position.
pub const PERIOD: usize = 64;

/// The rate, in frames a second.
pub const RATE: u32 = 48_000;

/// The parameters of a ring of 1,024 frames.
pub fn ring_params(channels: u32, clients: u32) -> RingParams {
    RingParams {
        channels,
        rate: RATE,
        period_size: PERIOD as u32,
        buffer_size: 1024,
        clients,
    }
}

/// The parameters of a stream with a buffer of half the ring.
pub fn hw_params(channels: u32) -> HwParams {
    HwParams {
        channels,
        rate: RATE,
        period_size: PERIOD as u32,
        buffer_size: 512,
    }
}

/// A ring of 1,024 frames, and its card.
pub fn open_ring(channels: u32, clients: u32) -> (Ring, Card) {
    Ring::open(&ring_params(channels, clients)).unwrap()
}

/// A client that is prepared, with a buffer of half the ring.
pub fn open_client(ring: &Ring, channels: u32) -> Client {
    let mut client = ring.open_client().unwrap();
    client.hw_params(&hw_params(channels)).unwrap();
    client
}

/// The next frames that a card takes.
pub fn take(card: &mut Card, frames: usize) -> Vec<i16> {
    let mut out = vec![0; frames * card.channels()];
    assert_eq!(card.play(&mut out), Ok(frames));
    out
}

/// Samples of which there are runs: `runs(&[(2, 7), (1, 0)])` is 7, 7, 0.
pub fn runs(runs: &[(usize, i16)]) -> Vec<i16> {
    runs.iter()
        .flat_map(|&(count, sample)| std::iter::repeat_n(sample, count))
        .collect()
}
