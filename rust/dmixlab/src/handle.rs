//! Handles of the C library, each used by one call at a time.

use dmixlab_sys as sys;

/// A kind of handle.
///
/// # Safety
///
/// What an open handle of this kind stands for may be used by any thread, by one call at a time.
pub(crate) unsafe trait Kind {
    /// A closed handle.
    const CLOSED: Self;
}

// SAFETY: `dmixlab.h` says so of every handle.
unsafe impl Kind for sys::dmix_ring_t {
    const CLOSED: Self = sys::dmix_ring_t::CLOSED;
}

// SAFETY: `dmixlab.h` says so of every handle.
unsafe impl Kind for sys::dmix_card_t {
    const CLOSED: Self = sys::dmix_card_t::CLOSED;
}

// SAFETY: `dmixlab.h` says so of every handle.
unsafe impl Kind for sys::dmix_client_t {
    const CLOSED: Self = sys::dmix_client_t::CLOSED;
}

// SAFETY: `dmixlab.h` says so of every handle.
unsafe impl Kind for sys::dmix_reader_t {
    const CLOSED: Self = sys::dmix_reader_t::CLOSED;
}

/// A handle that is closed, or was opened by the library, and that is this value's alone.
///
/// It may be moved, since the library keeps no pointer to it between calls.
pub(crate) struct Handle<K: Kind>(K);

// SAFETY: by `Kind` any thread may use it, and calls use it one at a time, since `pointer` asks for
// `&mut`.
unsafe impl<K: Kind> Send for Handle<K> {}

impl<K: Kind> Handle<K> {
    /// A closed handle.
    pub(crate) const fn closed() -> Handle<K> {
        Handle(K::CLOSED)
    }

    /// The handle for a call of the library that is made before this borrow ends: a valid pointer,
    /// which no other call uses meanwhile.
    pub(crate) fn pointer(&mut self) -> *mut K {
        &raw mut self.0
    }
}
