//! Three voices, each written by a thread of its own, in an output that asks for samples by a
//! callback of cpal's shape.
//!
//!     cargo run --example callback [OUT.wav]
//!
//! The module `output` stands in for cpal: it calls back from a thread of its own, a period at a
//! time and by the clock, as a sound card does, and keeps what it got. With a file's name that is
//! stored as a WAV file.

use dmixlab::{Card, Client, Error, HwParams, Ring, RingParams};
use output::{OutputCallbackInfo, StreamConfig};
use std::f64::consts::TAU;
use std::time::Duration;
use std::{env, fs, thread};

const CHANNELS: u16 = 2;
const RATE: u32 = 48_000;
const PERIOD: u32 = 256;

/// An A major chord, of which each voice begins later than the one before.
const VOICES: [(f64, u64); 3] = [(440.0, 0), (554.37, 300), (659.26, 600)];

fn main() -> Result<(), Box<dyn std::error::Error>> {
    let (ring, mut card) = Ring::open(&RingParams {
        channels: CHANNELS.into(),
        rate: RATE,
        period_size: PERIOD,
        buffer_size: 2048,
        clients: 8,
    })?;
    let config = StreamConfig {
        channels: CHANNELS,
        sample_rate: RATE,
        buffer_size: PERIOD,
    };
    let stream = output::build_output_stream(
        config,
        move |data: &mut [i16], _info: &OutputCallbackInfo| fill(&mut card, data),
    );
    thread::scope(|scope| {
        let voices = VOICES.map(|(hertz, begin)| {
            let ring = &ring;
            scope.spawn(move || play_voice(ring, hertz, Duration::from_millis(begin)))
        });
        voices
            .into_iter()
            .try_for_each(|voice| voice.join().expect("a voice doesn't panic"))
    })?;
    let played = stream.stop();
    let peak = played.iter().map(|sample| sample.unsigned_abs()).max();
    println!(
        "{} frames, the greatest sample is {}",
        played.len() / usize::from(CHANNELS),
        peak.unwrap_or(0)
    );
    if let Some(path) = env::args_os().nth(1) {
        fs::write(path, output::wav_file(config, &played))?;
    }
    Ok(())
}

/// The callback. It takes no lock and no memory, and doesn't panic: where the card gives nothing,
/// there is silence.
fn fill(card: &mut Card, data: &mut [i16]) {
    if card.play(data).is_err() {
        data.fill(0);
    }
}

/// Plays a tone of a second that begins a while after now, from the calling thread.
fn play_voice(ring: &Ring, hertz: f64, begin: Duration) -> dmixlab::Result<()> {
    thread::sleep(begin);
    let mut client = ring.open_client()?;
    client.hw_params(&HwParams {
        channels: CHANNELS.into(),
        rate: RATE,
        period_size: PERIOD,
        buffer_size: 1024,
    })?;
    write_all(&mut client, &tone(hertz))?;
    while client.drain() == Err(Error::Again) {
        thread::sleep(period() / 4);
    }
    Ok(())
}

/// A second of a tone that fades, in both channels.
fn tone(hertz: f64) -> Vec<i16> {
    (0..RATE)
        .flat_map(|frame| {
            let time = f64::from(frame) / f64::from(RATE);
            let sample = (TAU * hertz * time).sin() * (1.0 - time) * 12_000.0;
            [sample as i16; CHANNELS as usize]
        })
        .collect()
}

/// Writes all samples, and sleeps a part of a period where the client is full.
fn write_all(client: &mut Client, mut samples: &[i16]) -> dmixlab::Result<()> {
    while !samples.is_empty() {
        match client.writei(samples) {
            Ok(frames) => samples = &samples[frames * usize::from(CHANNELS)..],
            Err(Error::Again) => thread::sleep(period() / 4),
            Err(Error::Xrun) => client.prepare()?,
            Err(error) => return Err(error),
        }
    }
    Ok(())
}

/// How long a period is.
fn period() -> Duration {
    Duration::from_secs(1) * PERIOD / RATE
}

/// What stands in for cpal.
mod output {
    use std::sync::Arc;
    use std::sync::atomic::{AtomicBool, Ordering};
    use std::thread::{self, JoinHandle};
    use std::time::{Duration, Instant};

    /// What a stream is, with a buffer of so many frames.
    #[derive(Clone, Copy)]
    pub struct StreamConfig {
        pub channels: u16,
        pub sample_rate: u32,
        pub buffer_size: u32,
    }

    /// What a callback is told beside its buffer.
    pub struct OutputCallbackInfo;

    /// A stream that calls back until it is stopped.
    pub struct Stream {
        stops: Arc<AtomicBool>,
        thread: JoinHandle<Vec<i16>>,
    }

    /// Starts a stream, which fills its buffer by the callback.
    pub fn build_output_stream<F>(config: StreamConfig, mut data_callback: F) -> Stream
    where
        F: FnMut(&mut [i16], &OutputCallbackInfo) + Send + 'static,
    {
        let stops = Arc::new(AtomicBool::new(false));
        let is_stopped = Arc::clone(&stops);
        let thread = thread::spawn(move || {
            let mut buffer = vec![0; config.buffer_size as usize * usize::from(config.channels)];
            let mut played = Vec::new();
            let mut due = Instant::now();
            while !is_stopped.load(Ordering::SeqCst) {
                data_callback(&mut buffer, &OutputCallbackInfo);
                played.extend_from_slice(&buffer);
                due += Duration::from_secs(1) * config.buffer_size / config.sample_rate;
                thread::sleep(due.saturating_duration_since(Instant::now()));
            }
            played
        });
        Stream { stops, thread }
    }

    impl Stream {
        /// Stops the stream, and gives what it played.
        pub fn stop(self) -> Vec<i16> {
            self.stops.store(true, Ordering::SeqCst);
            self.thread.join().expect("the callback doesn't panic")
        }
    }

    /// A WAV file of these samples.
    pub fn wav_file(config: StreamConfig, samples: &[i16]) -> Vec<u8> {
        let bytes = 2 * samples.len() as u32;
        let frame = 2 * config.channels;
        let mut file = Vec::new();
        file.extend_from_slice(b"RIFF");
        file.extend_from_slice(&(36 + bytes).to_le_bytes());
        file.extend_from_slice(b"WAVEfmt ");
        file.extend_from_slice(&16_u32.to_le_bytes());
        for word in [1, config.channels] {
            file.extend_from_slice(&word.to_le_bytes());
        }
        for word in [config.sample_rate, config.sample_rate * u32::from(frame)] {
            file.extend_from_slice(&word.to_le_bytes());
        }
        for word in [frame, 16] {
            file.extend_from_slice(&word.to_le_bytes());
        }
        file.extend_from_slice(b"data");
        file.extend_from_slice(&bytes.to_le_bytes());
        file.extend(samples.iter().flat_map(|sample| sample.to_le_bytes()));
        file
    }
}
