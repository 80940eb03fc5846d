//! Readers: what each reads is what the card captured, by themselves and in threads beside it.

mod common;

use common::{PERIOD, hw_params, open_ring, ring_params, runs};
use dmixlab::{DuplexCard, Error, Reader, Ring, State, SwParams};
use std::sync::atomic::{AtomicU64, Ordering::SeqCst};
use std::thread;

/// A ring of 1,024 frames that captures, and its card.
fn open_duplex(channels: u32) -> (Ring, DuplexCard) {
    Ring::open_duplex(&ring_params(channels, 4)).unwrap()
}

/// A reader that runs, from the card's position on.
fn open_reader(ring: &Ring, channels: u32) -> Reader {
    let mut reader = ring.open_reader().unwrap();
    reader.hw_params(&hw_params(channels)).unwrap();
    reader.start().unwrap();
    reader
}

/// Has a card capture samples, and answers what it plays.
fn capture(card: &mut DuplexCard, captured: &[i16]) -> Vec<i16> {
    let mut played = vec![0; captured.len()];
    assert_eq!(
        card.run(captured, &mut played),
        Ok(captured.len() / card.channels())
    );
    played
}

/// The next frames of a reader of one channel, of which there are fewer than 1,024.
fn read(reader: &mut Reader) -> Vec<i16> {
    let mut out = vec![0; 1024];
    let frames = reader.readi(&mut out).unwrap();
    out.truncate(frames);
    out
}

#[test]
fn readers_and_duplex_cards_are_sent() {
    fn is_sent<T: Send + 'static>() {}
    is_sent::<DuplexCard>();
    is_sent::<Reader>();
}

#[test]
fn each_reader_reads_all_from_its_start_on() {
    let (ring, mut card) = open_duplex(1);
    let mut early = open_reader(&ring, 1);
    capture(&mut card, &runs(&[(64, 1)]));
    let mut late = open_reader(&ring, 1);
    capture(&mut card, &runs(&[(64, 2)]));

    assert_eq!(early.delay(), Ok(128));
    assert_eq!(read(&mut early), runs(&[(64, 1), (64, 2)]));
    assert_eq!(read(&mut late), runs(&[(64, 2)]));
    assert_eq!(late.readi(&mut [0]), Err(Error::Again));
    assert_eq!(late.status().position, 128);
}

#[test]
fn a_ring_that_plays_alone_has_no_readers() {
    let (ring, _card) = open_ring(1, 1);
    assert_eq!(ring.open_reader().err(), Some(Error::NotSupported));
}

#[test]
fn a_duplex_card_plays_what_clients_wrote() {
    let (ring, mut card) = open_duplex(1);
    let mut client = ring.open_client().unwrap();
    client.hw_params(&hw_params(1)).unwrap();
    assert_eq!(client.writei(&[7; PERIOD]), Ok(PERIOD));
    assert_eq!(
        capture(&mut card, &[0; 192]),
        runs(&[(64, 0), (64, 7), (64, 0)])
    );
}

#[test]
fn buffers_of_other_lengths_are_refused() {
    let (ring, mut card) = open_duplex(2);
    let mut reader = open_reader(&ring, 2);
    assert_eq!(card.run(&[1; 4], &mut [0; 2]), Err(Error::Invalid));
    assert_eq!(card.run(&[1; 3], &mut [0; 3]), Err(Error::Invalid));
    assert_eq!(reader.readi(&mut [0; 3]), Err(Error::Invalid));
    assert_eq!(reader.avail_update(), Ok(0));
}

#[test]
fn a_reader_that_is_too_slow_goes_on_after_prepare() {
    let (ring, mut card) = open_duplex(1);
    let mut reader = open_reader(&ring, 1);
    capture(&mut card, &[3; 512]);
    assert_eq!(reader.readi(&mut [0; 8]), Err(Error::Xrun));
    assert_eq!(reader.state(), State::Xrun);

    reader.prepare().unwrap();
    let never_stops = SwParams {
        start_threshold: 1,
        stop_threshold: 1 << 40,
        avail_min: 1,
    };
    reader.sw_params(&never_stops).unwrap();
    reader.start().unwrap();
    capture(&mut card, &[4; 2000]);
    assert_eq!(reader.avail_update(), Ok(2000));
    assert_eq!(reader.readi(&mut [0; 8]), Err(Error::Xrun));

    reader.prepare().unwrap();
    reader.start().unwrap();
    capture(&mut card, &[5; 10]);
    assert_eq!(read(&mut reader), [5; 10]);
}

#[test]
fn a_card_that_is_unplugged_ends_its_readers() {
    let (ring, mut card) = open_duplex(1);
    let mut reader = open_reader(&ring, 1);
    card.unplug();
    assert_eq!(reader.readi(&mut [0; 8]), Err(Error::NoDevice));
    assert_eq!(reader.state(), State::Disconnected);
}

/// The sample that a card captures in a frame and a channel.
fn sample(frame: u64, channel: u64) -> i16 {
    ((frame * 2 + channel + 1).wrapping_mul(0x9E37_79B9_7F4A_7C15) >> 48) as i16
}

/// Frames of two channels, from one on.
fn frames_from(first: u64, frames: u64) -> Vec<i16> {
    (first..first + frames)
        .flat_map(|frame| [sample(frame, 0), sample(frame, 1)])
        .collect()
}

/// Says that a reader has read all, when its thread ends, so that the card goes on also where it
/// failed.
struct Ended<'a>(&'a AtomicU64);

impl Drop for Ended<'_> {
    fn drop(&mut self) {
        self.0.store(FRAMES, SeqCst);
    }
}

/// How many frames are captured beside readers in threads.
const FRAMES: u64 = 50_000;

#[test]
fn readers_in_threads_read_what_is_captured_meanwhile() {
    let (ring, mut card) = open_duplex(2);
    let read: Vec<AtomicU64> = (0..4).map(|_| AtomicU64::new(0)).collect();
    let readers: Vec<Reader> = read.iter().map(|_| open_reader(&ring, 2)).collect();
    thread::scope(|scope| {
        for (number, (mut reader, read)) in readers.into_iter().zip(&read).enumerate() {
            scope.spawn(move || {
                let _ended = Ended(read);
                let mut out = vec![0; 2 * (number * 7 + 13)];
                let mut at = 0;
                while at < FRAMES {
                    match reader.readi(&mut out) {
                        Ok(frames) => {
                            assert_eq!(out[..2 * frames], frames_from(at, frames as u64));
                            at += frames as u64;
                        }
                        Err(Error::Again) => thread::yield_now(),
                        Err(error) => panic!("reader {number} at frame {at}: {error}"),
                    }
                    read.store(at, SeqCst);
                }
            });
        }
        // a card that waits for the slowest reader, so that none is an overrun
        for at in (0..FRAMES).step_by(PERIOD) {
            let frames = (FRAMES - at).min(PERIOD as u64);
            while read
                .iter()
                .any(|read| read.load(SeqCst) + 512 <= at + frames)
            {
                thread::yield_now();
            }
            capture(&mut card, &frames_from(at, frames));
        }
    });
}
