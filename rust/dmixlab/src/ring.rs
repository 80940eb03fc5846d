//! A ring's places.

use crate::card::Card;
use crate::client::Client;
use crate::duplex::DuplexCard;
use crate::error::{Result, done};
use crate::handle::Handle;
use crate::params::RingParams;
use crate::reader::Reader;
use dmixlab_sys as sys;
use std::fmt;
use std::sync::{Arc, Mutex, MutexGuard, PoisonError};

/// The places of a ring, where clients are opened, and readers where it captures.
///
/// A clone is the same ring, so threads can each have one, or share one by reference. The ring is
/// there until its last clone, client and reader are dropped; the card goes on by itself.
///
/// ```
/// use dmixlab::{Error, Ring, RingParams};
///
/// # fn main() -> dmixlab::Result<()> {
/// let params = RingParams {
///     channels: 2,
///     rate: 48_000,
///     period_size: 256,
///     buffer_size: 2048,
///     clients: 1,
/// };
/// let (ring, _card) = Ring::open(&params)?;
///
/// let client = ring.open_client()?;
/// assert_eq!(ring.open_client().err(), Some(Error::Again));
/// drop(client);
/// assert!(ring.open_client().is_ok());
/// # Ok(())
/// # }
/// ```
#[derive(Clone)]
pub struct Ring(Arc<Places>);

/// The handle of a ring, which is freed with its last owner.
struct Places(Mutex<Handle<sys::dmix_ring_t>>);

impl Ring {
    /// Opens a ring and its card, which plays alone.
    ///
    /// # Errors
    ///
    /// - [`Error::Invalid`](crate::Error::Invalid): a parameter is out of its range.
    /// - [`Error::Memory`](crate::Error::Memory): no memory is left.
    pub fn open(params: &RingParams) -> Result<(Ring, Card)> {
        let lent = params.to_sys();
        let (mut ring, mut card) = (Handle::closed(), Handle::closed());
        // SAFETY: the handles are this call's alone, and the parameters are lent for it.
        done(unsafe { sys::dmix_c_ring_open(ring.pointer(), card.pointer(), &lent) })?;
        let ring = Ring(Arc::new(Places(Mutex::new(ring))));
        Ok((ring, Card::new(card, params.channels as usize)))
    }

    /// Opens a ring that captures too, and its card, which captures and plays.
    ///
    /// # Errors
    ///
    /// Those of [`Ring::open`].
    pub fn open_duplex(params: &RingParams) -> Result<(Ring, DuplexCard)> {
        let lent = params.to_sys();
        let (mut ring, mut card) = (Handle::closed(), Handle::closed());
        // SAFETY: the handles are this call's alone, and the parameters are lent for it.
        done(unsafe { sys::dmix_c_duplex_open(ring.pointer(), card.pointer(), &lent) })?;
        let ring = Ring(Arc::new(Places(Mutex::new(ring))));
        Ok((ring, DuplexCard::new(card, params.channels as usize)))
    }

    /// Opens a reader, in the state `Open`, of a ring that captures. It takes a mutex, and memory,
    /// but no place: there are as many readers as are opened.
    ///
    /// # Errors
    ///
    /// - [`Error::NotSupported`](crate::Error::NotSupported): the ring captures nothing
    ///   ([`Ring::open`]).
    /// - [`Error::Memory`](crate::Error::Memory): no memory is left.
    pub fn open_reader(&self) -> Result<Reader> {
        let mut reader = Handle::closed();
        let mut ring = self.lock();
        // SAFETY: the handles are this call's alone.
        done(unsafe { sys::dmix_c_reader_open(reader.pointer(), ring.pointer()) })?;
        Ok(Reader::new(reader, self.clone()))
    }

    /// Opens a client, in the state `Open`, at the lowest place that is free and whose last frame
    /// is played. It takes a mutex, and memory.
    ///
    /// # Errors
    ///
    /// - [`Error::Again`](crate::Error::Again): there is no such place now.
    /// - [`Error::Memory`](crate::Error::Memory): no memory is left.
    pub fn open_client(&self) -> Result<Client> {
        let mut client = Handle::closed();
        let mut ring = self.lock();
        // SAFETY: the handles are this call's alone.
        done(unsafe { sys::dmix_c_client_open(client.pointer(), ring.pointer()) })?;
        Ok(Client::new(client, self.clone()))
    }

    /// The ring's handle, until the guard is dropped. A thread that panicked while it had the guard
    /// left the handle whole, since no call of the library panics.
    fn lock(&self) -> MutexGuard<'_, Handle<sys::dmix_ring_t>> {
        self.0.0.lock().unwrap_or_else(PoisonError::into_inner)
    }
}

impl fmt::Debug for Ring {
    fn fmt(&self, f: &mut fmt::Formatter<'_>) -> fmt::Result {
        f.debug_struct("Ring").finish_non_exhaustive()
    }
}

impl Drop for Places {
    fn drop(&mut self) {
        let ring = self.0.get_mut().unwrap_or_else(PoisonError::into_inner);
        // SAFETY: the handle is this call's alone.
        let _freed = unsafe { sys::dmix_c_ring_free(ring.pointer()) };
    }
}
