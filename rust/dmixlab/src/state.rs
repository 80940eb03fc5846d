//! What a client or a reader is at a moment.

use dmixlab_sys as sys;
use std::fmt;

/// The state of a client or a reader, with the names and numbers of ALSA (`snd_pcm_state_t`).
///
/// It is shown by its name in capitals, as `snd_pcm_state_name` gives it.
///
/// ```
/// assert_eq!(dmixlab::State::Prepared.to_string(), "PREPARED");
/// ```
#[derive(Clone, Copy, Debug, PartialEq, Eq, Hash)]
pub enum State {
    /// Opened, and without hardware parameters.
    Open = 0,
    /// With hardware parameters, and not prepared.
    Setup = 1,
    /// Ready to start.
    Prepared = 2,
    /// Started, and moving frames.
    Running = 3,
    /// Stopped by an underrun or an overrun. `prepare` leads out.
    Xrun = 4,
    /// Playing what is left, and then at its end.
    Draining = 5,
    /// Paused in its run.
    Paused = 6,
    /// The card is unplugged.
    Disconnected = 8,
}

impl State {
    /// The state of a number that the C library answers: one of 0 to 6, or 8.
    pub(crate) fn of_number(number: i64) -> State {
        match number {
            0 => State::Open,
            1 => State::Setup,
            2 => State::Prepared,
            3 => State::Running,
            4 => State::Xrun,
            5 => State::Draining,
            6 => State::Paused,
            _ => State::Disconnected,
        }
    }

    /// The name in capitals.
    pub fn name(self) -> &'static str {
        match self {
            State::Open => "OPEN",
            State::Setup => "SETUP",
            State::Prepared => "PREPARED",
            State::Running => "RUNNING",
            State::Xrun => "XRUN",
            State::Draining => "DRAINING",
            State::Paused => "PAUSED",
            State::Disconnected => "DISCONNECTED",
        }
    }
}

impl fmt::Display for State {
    fn fmt(&self, f: &mut fmt::Formatter<'_>) -> fmt::Result {
        f.pad(self.name())
    }
}

/// What a client or a reader is at a moment (`snd_pcm_status_t`).
#[derive(Clone, Copy, Debug, PartialEq, Eq)]
#[non_exhaustive]
pub struct Status {
    /// The state.
    pub state: State,
    /// How many frames can be written, or of a reader read, as
    /// [`avail_update`](crate::Client::avail_update) says, or 0 where that is an error.
    pub avail: u64,
    /// How many frames are played before the next one, as [`delay`](crate::Client::delay) says, or
    /// 0 where that is an error; of a reader `avail` again.
    pub delay: u64,
    /// The card's position that was seen last, a frame number, or 0 before the first.
    pub position: u64,
}

impl Status {
    /// What the C library says of a client or a reader.
    pub(crate) fn from_sys(status: &sys::dmix_status_t) -> Status {
        Status {
            state: State::of_number(status.state as i64),
            avail: status.avail,
            delay: status.delay,
            position: status.position,
        }
    }
}

#[cfg(test)]
mod tests {
    use super::State;

    #[test]
    fn states_have_the_numbers_of_alsa() {
        for number in [0, 1, 2, 3, 4, 5, 6, 8] {
            assert_eq!(State::of_number(number) as i64, number);
        }
    }
}
