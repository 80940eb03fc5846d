//! Clients in threads beside a card in a thread: each sample that the card takes is the saturated
//! sum of what was written there.

mod common;

use common::{PERIOD, open_client, open_ring};
use dmixlab::{Card, Client, Error};
use std::sync::atomic::{AtomicBool, AtomicU64, Ordering::SeqCst};
use std::thread;

/// What is played: each of `clients` clients writes `frames` frames of `channels` channels, the
/// first at the card's frame 64.
struct Session {
    clients: u64,
    channels: usize,
    frames: u64,
    loud: bool,
    /// How many frames each client has written.
    written: Vec<AtomicU64>,
    /// A thread has failed, so that the others are to end.
    failed: AtomicBool,
}

/// Sets `failed` where a thread panics.
struct Alarm<'a>(&'a AtomicBool);

impl Drop for Alarm<'_> {
    fn drop(&mut self) {
        if thread::panicking() {
            self.0.store(true, SeqCst);
        }
    }
}

impl Session {
    fn new(clients: u64, channels: usize, frames: u64, loud: bool) -> Session {
        Session {
            clients,
            channels,
            frames,
            loud,
            written: (0..clients).map(|_| AtomicU64::new(0)).collect(),
            failed: AtomicBool::new(false),
        }
    }

    /// The sample that a client writes in a frame of its own and a channel.
    fn sample(&self, client: u64, frame: u64, channel: usize) -> i16 {
        let mut bits = (frame * 8 + channel as u64)
            .wrapping_mul(0x9E37_79B9_7F4A_7C15)
            .wrapping_add(client.wrapping_mul(0xD1B5_4A32_D192_ED03));
        bits ^= bits >> 29;
        bits = bits.wrapping_mul(0xBF58_476D_1CE4_E5B9);
        let sample = (bits >> 40) as i16;
        if self.loud {
            sample
        } else {
            sample / self.clients as i16
        }
    }

    /// The frames that a client writes from one on.
    fn block(&self, client: u64, from: u64, frames: u64) -> Vec<i16> {
        (from..from + frames)
            .flat_map(|frame| (0..self.channels).map(move |channel| (frame, channel)))
            .map(|(frame, channel)| self.sample(client, frame, channel))
            .collect()
    }

    /// The sample that the card is to take in a frame of its own and a channel.
    fn sum(&self, frame: u64, channel: usize) -> i16 {
        let Some(frame) = frame.checked_sub(PERIOD as u64) else {
            return 0;
        };
        let sum: i32 = (0..self.clients)
            .map(|client| i32::from(self.sample(client, frame, channel)))
            .sum();
        sum.clamp(i16::MIN.into(), i16::MAX.into()) as i16
    }

    /// Waits a moment, unless another thread failed.
    fn wait(&self) {
        assert!(!self.failed.load(SeqCst), "another thread failed");
        thread::yield_now();
    }

    /// Writes what is left of a client's frames, in blocks of a length of its own.
    fn write(&self, number: u64, mut client: Client) {
        let _alarm = Alarm(&self.failed);
        let length = 1 + (number * 7 + 13) % PERIOD as u64;
        let mut at = self.written[number as usize].load(SeqCst);
        while at < self.frames {
            let block = self.block(number, at, length.min(self.frames - at));
            match client.writei(&block) {
                Ok(frames) => at += frames as u64,
                Err(Error::Again) => self.wait(),
                Err(error) => panic!("client {number} at frame {at}: {error}"),
            }
            self.written[number as usize].store(at, SeqCst);
        }
    }

    /// Whether the card can play up to a frame of its own so that no client is late. A client that
    /// still writes keeps a frame that isn't played, or its stream would be an underrun.
    fn can_play(&self, upto: u64) -> bool {
        self.written.iter().all(|written| {
            let written = written.load(SeqCst);
            written == self.frames || upto < PERIOD as u64 + written
        })
    }

    /// Takes all frames, and compares each sample. Answers how many are at an end of the range.
    fn play(&self, mut card: Card) -> usize {
        let _alarm = Alarm(&self.failed);
        let end = PERIOD as u64 + self.frames;
        let mut out = vec![0; PERIOD * self.channels];
        let (mut at, mut saturated) = (0, 0);
        while at < end {
            let frames = (end - at).min(PERIOD as u64);
            while !self.can_play(at + frames) {
                self.wait();
            }
            let out = &mut out[..frames as usize * self.channels];
            assert_eq!(card.play(out), Ok(frames as usize));
            for (index, &sample) in out.iter().enumerate() {
                let (frame, channel) = (at + (index / self.channels) as u64, index % self.channels);
                assert_eq!(
                    sample,
                    self.sum(frame, channel),
                    "frame {frame}, channel {channel}"
                );
                saturated += usize::from(sample == i16::MIN || sample == i16::MAX);
            }
            at += frames;
        }
        saturated
    }

    /// Plays the session, and answers how many samples are at an end of the range.
    fn run(self) -> usize {
        let (ring, card) = open_ring(self.channels as u32, self.clients as u32);
        let mut clients = Vec::new();
        for number in 0..self.clients {
            let mut client = open_client(&ring, self.channels as u32);
            let first = self.block(number, 0, PERIOD as u64);
            assert_eq!(client.writei(&first), Ok(PERIOD));
            self.written[number as usize].store(PERIOD as u64, SeqCst);
            clients.push(client);
        }
        assert_eq!(ring.open_client().err(), Some(Error::Again));
        let session = &self;
        thread::scope(|scope| {
            for (number, client) in clients.into_iter().enumerate() {
                scope.spawn(move || session.write(number as u64, client));
            }
            scope.spawn(move || session.play(card)).join().unwrap()
        })
    }
}

#[test]
fn one_client_is_heard_as_it_is() {
    Session::new(1, 1, 50_000, false).run();
}

#[test]
fn four_clients_are_added() {
    assert_eq!(Session::new(4, 2, 50_000, false).run(), 0);
}

#[test]
fn loud_clients_are_saturated_once() {
    let saturated = Session::new(4, 2, 50_000, true).run();
    assert!(saturated > 1000, "{saturated} samples are saturated");
}

#[test]
fn sixteen_clients_of_eight_channels_are_added() {
    Session::new(16, 8, 5_000, true).run();
}
