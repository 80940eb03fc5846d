//! A client's calls, by themselves and beside others that end.

mod common;

use common::{PERIOD, hw_params, open_client, open_ring, ring_params, runs, take};
use dmixlab::{Card, Client, Error, HwParams, Ring, RingParams, State, SwParams};
use std::panic::resume_unwind;
use std::thread;

#[test]
fn rings_are_shared_and_the_others_sent() {
    fn is_shared<T: Send + Sync + 'static>() {}
    fn is_sent<T: Send + 'static>() {}
    is_shared::<Ring>();
    is_sent::<Card>();
    is_sent::<Client>();
}

#[test]
fn a_client_that_stops_to_write_is_an_xrun_and_goes_on_after_prepare() {
    let (ring, mut card) = open_ring(1, 1);
    let mut client = open_client(&ring, 1);
    assert_eq!(client.writei(&[100; PERIOD]), Ok(PERIOD));
    assert_eq!(take(&mut card, 192), runs(&[(64, 0), (64, 100), (64, 0)]));

    assert_eq!(client.writei(&[7; PERIOD]), Err(Error::Xrun));
    assert_eq!(client.state(), State::Xrun);
    assert_eq!(client.writei(&[7; PERIOD]), Err(Error::Xrun));

    client.prepare().unwrap();
    assert_eq!(client.writei(&[9; PERIOD]), Ok(PERIOD));
    assert_eq!(take(&mut card, 192), runs(&[(64, 0), (64, 9), (64, 0)]));
}

#[test]
fn a_frame_that_comes_too_late_is_not_heard() {
    let (ring, mut card) = open_ring(1, 1);
    let mut client = open_client(&ring, 1);
    let never_stops = SwParams {
        start_threshold: 1,
        stop_threshold: 1 << 40,
        avail_min: 1,
    };
    client.sw_params(&never_stops).unwrap();
    assert_eq!(client.writei(&[100; PERIOD]), Ok(PERIOD));
    assert_eq!(take(&mut card, 160), runs(&[(64, 0), (64, 100), (32, 0)]));

    // the next frame is the card's frame 128, which is taken
    assert_eq!(client.writei(&[7; PERIOD]), Err(Error::Xrun));
    assert_eq!(client.state(), State::Xrun);
    assert_eq!(take(&mut card, 64), runs(&[(64, 0)]));
}

#[test]
fn a_client_that_is_dropped_leaves_the_others_and_what_it_placed() {
    let (ring, mut card) = open_ring(1, 2);
    let mut stays = open_client(&ring, 1);
    let mut goes = open_client(&ring, 1);
    assert_eq!(stays.writei(&[1000; 128]), Ok(128));
    assert_eq!(goes.writei(&[20; 128]), Ok(128));
    assert_eq!(take(&mut card, 96), runs(&[(64, 0), (32, 1020)]));

    drop(goes);
    assert_eq!(stays.writei(&[1000; 64]), Ok(64));
    assert_eq!(ring.open_client().err(), Some(Error::Again));
    assert_eq!(take(&mut card, 96), runs(&[(96, 1020)]));

    // what it placed is played, so its place is free again
    let mut comes = open_client(&ring, 1);
    assert_eq!(comes.writei(&[3; 64]), Ok(64));
    assert_eq!(take(&mut card, 128), runs(&[(64, 1000), (64, 3)]));
}

#[test]
fn a_thread_that_panics_gives_its_place_back() {
    let (ring, mut card) = open_ring(1, 1);
    let client = open_client(&ring, 1);
    let thread = thread::spawn(move || write_and_panic(client));
    assert!(thread.join().is_err());
    assert_eq!(ring.open_client().err(), Some(Error::Again));
    assert_eq!(take(&mut card, 128), runs(&[(64, 0), (64, 5)]));
    assert!(ring.open_client().is_ok());
}

/// Writes a period, and panics while it has the client.
fn write_and_panic(mut client: Client) {
    client.writei(&[5; PERIOD]).unwrap();
    resume_unwind(Box::new(()));
}

#[test]
fn there_are_as_many_places_as_asked_for() {
    for clients in [1, 5, 64] {
        let (ring, _card) = open_ring(1, clients);
        let mut open: Vec<Client> = (0..clients).map(|_| ring.open_client().unwrap()).collect();
        assert_eq!(ring.open_client().err(), Some(Error::Again));
        open.pop();
        assert!(ring.open_client().is_ok());
    }
}

#[test]
fn clients_and_card_go_on_without_the_ring() {
    let (ring, mut card) = open_ring(1, 1);
    let mut client = open_client(&ring, 1);
    drop(ring);
    assert_eq!(client.writei(&[5; PERIOD]), Ok(PERIOD));
    assert_eq!(take(&mut card, 128), runs(&[(64, 0), (64, 5)]));

    let ring = client.ring().clone();
    drop(client);
    let mut client = open_client(&ring, 1);
    drop(card);
    while client.writei(&[5; PERIOD]).is_ok() {}
    assert_eq!(client.writei(&[5; PERIOD]), Err(Error::Again));
}

#[test]
fn a_ring_that_cannot_be_is_refused() {
    type Change = fn(&mut RingParams);
    let bad: [(&str, Change); 9] = [
        ("no channel", |params| params.channels = 0),
        ("nine channels", |params| params.channels = 9),
        ("no rate", |params| params.rate = 0),
        ("no period", |params| params.period_size = 0),
        ("a period of the buffer", |params| params.period_size = 1024),
        ("a short buffer", |params| {
            (params.buffer_size, params.period_size) = (63, 8)
        }),
        ("a long buffer", |params| params.buffer_size = 16_385),
        ("no client", |params| params.clients = 0),
        ("65 clients", |params| params.clients = 65),
    ];
    assert!(Ring::open(&ring_params(2, 4)).is_ok());
    for (what, change) in bad {
        let mut params = ring_params(2, 4);
        change(&mut params);
        assert_eq!(Ring::open(&params).err(), Some(Error::Invalid), "{what}");
    }
}

#[test]
fn hardware_parameters_that_cannot_be_are_refused() {
    let (ring, _card) = open_ring(2, 1);
    let mut client = ring.open_client().unwrap();
    let good = hw_params(2);
    let bad = [
        HwParams {
            channels: 0,
            ..good
        },
        HwParams {
            channels: 3,
            ..good
        },
        HwParams {
            rate: 44_100,
            ..good
        },
        HwParams {
            period_size: 0,
            ..good
        },
        HwParams {
            period_size: 513,
            ..good
        },
        HwParams {
            buffer_size: 16_385,
            ..good
        },
    ];
    for params in bad {
        assert_eq!(client.hw_params(&params), Err(Error::Invalid), "{params:?}");
        assert_eq!(client.state(), State::Open);
    }
    client.hw_params(&good).unwrap();
    assert_eq!(client.state(), State::Prepared);
}

#[test]
fn bindings_say_where_channels_go() {
    let (ring, mut card) = open_ring(3, 1);
    let mut client = ring.open_client().unwrap();
    let params = hw_params(2);
    for bad in [&[][..], &[0], &[0, 0], &[0, 3], &[0, 1, 2], &[u32::MAX, 0]] {
        assert_eq!(
            client.hw_params_bindings(&params, bad),
            Err(Error::Invalid),
            "{bad:?}"
        );
    }
    client.hw_params_bindings(&params, &[2, 0]).unwrap();
    assert_eq!(client.writei(&[1, 2, 3, 4]), Ok(2));
    assert_eq!(take(&mut card, 66)[192..], [2, 0, 1, 4, 0, 3]);
}

#[test]
fn software_parameters_that_cannot_be_are_refused() {
    let (ring, _card) = open_ring(1, 1);
    let mut client = open_client(&ring, 1);
    let good = SwParams {
        start_threshold: 65,
        stop_threshold: 512,
        avail_min: 64,
    };
    let bad = [
        SwParams {
            start_threshold: 0,
            ..good
        },
        SwParams {
            stop_threshold: 0,
            ..good
        },
        SwParams {
            avail_min: 0,
            ..good
        },
        SwParams {
            start_threshold: u64::MAX,
            ..good
        },
        SwParams {
            stop_threshold: u64::MAX,
            ..good
        },
    ];
    for params in bad {
        assert_eq!(client.sw_params(&params), Err(Error::Invalid), "{params:?}");
    }
    client.sw_params(&good).unwrap();
    assert_eq!(client.writei(&[5; 64]), Ok(64));
    assert_eq!(client.state(), State::Prepared);
    assert_eq!(client.writei(&[5; 1]), Ok(1));
    assert_eq!(client.state(), State::Running);
}

#[test]
fn samples_that_make_no_whole_frames_are_refused() {
    let (ring, mut card) = open_ring(2, 1);
    let mut client = open_client(&ring, 2);
    assert_eq!(client.writei(&[1, 2, 3]), Err(Error::Invalid));
    assert_eq!(client.delay(), Ok(0));
    assert_eq!(client.writei(&[]), Ok(0));
    assert_eq!(client.state(), State::Prepared);

    // the card leaves what makes no whole frame
    let mut out = [7; 5];
    assert_eq!(card.play(&mut out), Ok(2));
    assert_eq!(out, [0, 0, 0, 0, 7]);
}

#[test]
fn a_client_without_hardware_parameters_moves_no_frames() {
    let (ring, _card) = open_ring(1, 1);
    let mut client = ring.open_client().unwrap();
    assert_eq!(client.writei(&[1]), Err(Error::BadState));
    assert_eq!(client.start(), Err(Error::BadState));
    assert_eq!(client.drain(), Err(Error::BadState));
    assert_eq!(client.drop_pending(), Err(Error::BadState));
    assert_eq!(client.pause(true), Err(Error::BadState));
    assert_eq!(client.prepare(), Err(Error::BadState));
    assert_eq!(client.hw_free(), Err(Error::BadState));
    assert_eq!(client.avail_update(), Err(Error::BadState));
    assert_eq!(client.delay(), Err(Error::BadState));
    assert_eq!(client.rewindable(), Err(Error::BadState));
    assert_eq!(client.rewind(1), Err(Error::BadState));
    assert_eq!(client.state(), State::Open);
}

#[test]
fn a_start_with_nothing_written_is_refused() {
    let (ring, _card) = open_ring(1, 1);
    let mut client = open_client(&ring, 1);
    assert_eq!(client.start(), Err(Error::Xrun));
    assert_eq!(client.state(), State::Prepared);
    client.hw_free().unwrap();
    assert_eq!(client.state(), State::Open);
}

#[test]
fn a_full_client_is_asked_to_try_again() {
    let (ring, mut card) = open_ring(1, 1);
    let mut client = open_client(&ring, 1);
    assert_eq!(client.writei(&[5; 600]), Ok(512));
    assert_eq!(client.writei(&[5; 1]), Err(Error::Again));
    assert_eq!(client.avail_update(), Ok(0));
    assert_eq!(client.delay(), Ok(576));
    take(&mut card, 128);
    assert_eq!(client.avail_update(), Ok(64));
    assert_eq!(client.delay(), Ok(448));
    assert_eq!(client.writei(&[5; 600]), Ok(64));
}

#[test]
fn a_full_client_that_waits_for_its_start_takes_nothing() {
    let (ring, mut card) = open_ring(1, 1);
    let mut client = open_client(&ring, 1);
    let waits = SwParams {
        start_threshold: 1000,
        stop_threshold: 512,
        avail_min: 1,
    };
    client.sw_params(&waits).unwrap();
    assert_eq!(client.writei(&[5; 600]), Ok(512));
    assert_eq!(client.writei(&[5; 1]), Ok(0));
    assert_eq!(client.state(), State::Prepared);
    client.start().unwrap();
    assert_eq!(client.writei(&[5; 1]), Err(Error::Again));
    assert_eq!(take(&mut card, 128), runs(&[(64, 0), (64, 5)]));
}

#[test]
fn a_paused_client_counts_by_its_last_load() {
    let (ring, mut card) = open_ring(1, 1);
    let mut client = open_client(&ring, 1);
    assert_eq!(client.writei(&[5; PERIOD]), Ok(PERIOD));
    assert_eq!(client.delay(), Ok(128));
    client.pause(true).unwrap();
    take(&mut card, 96);
    card.unplug();
    assert_eq!(client.delay(), Ok(128));
    assert_eq!(client.status().state, State::Paused);
}

#[test]
fn a_status_says_what_single_calls_say() {
    let (ring, mut card) = open_ring(1, 1);
    let mut client = open_client(&ring, 1);
    assert_eq!(client.writei(&[5; PERIOD]), Ok(PERIOD));
    take(&mut card, 96);
    let status = client.status();
    assert_eq!(status.state, State::Running);
    assert_eq!((status.avail, status.delay, status.position), (480, 32, 96));
    assert_eq!(client.avail_update(), Ok(480));
    assert_eq!(client.delay(), Ok(32));

    take(&mut card, 32);
    let status = client.status();
    assert_eq!(status.state, State::Xrun);
    assert_eq!((status.avail, status.delay, status.position), (0, 0, 128));
}

#[test]
fn a_drain_is_done_once_all_is_played() {
    let (ring, mut card) = open_ring(1, 1);
    let mut client = open_client(&ring, 1);
    assert_eq!(client.writei(&[5; PERIOD]), Ok(PERIOD));
    assert_eq!(client.drain(), Err(Error::Again));
    assert_eq!(client.state(), State::Draining);
    take(&mut card, 127);
    assert_eq!(client.drain(), Err(Error::Again));
    take(&mut card, 1);
    // any call that counts frames ends it
    assert_eq!(client.avail_update(), Ok(512));
    assert_eq!(client.state(), State::Setup);
    assert_eq!(client.drain(), Ok(()));
}

#[test]
fn a_pause_lets_what_is_placed_be_played() {
    let (ring, mut card) = open_ring(1, 1);
    let mut client = open_client(&ring, 1);
    assert_eq!(client.writei(&[5; PERIOD]), Ok(PERIOD));
    client.pause(true).unwrap();
    assert_eq!(client.state(), State::Paused);
    assert_eq!(client.writei(&[5; PERIOD]), Err(Error::BadState));
    assert_eq!(take(&mut card, 192), runs(&[(64, 0), (64, 5), (64, 0)]));
    client.pause(false).unwrap();
    assert_eq!(client.state(), State::Prepared);
}

#[test]
fn frames_that_are_rewound_are_not_heard() {
    let (ring, mut card) = open_ring(1, 1);
    let mut client = open_client(&ring, 1);
    assert_eq!(client.writei(&[100; 128]), Ok(128));
    assert_eq!(client.rewindable(), Ok(128));
    assert_eq!(take(&mut card, 96), runs(&[(64, 0), (32, 100)]));
    assert_eq!(client.rewindable(), Ok(96));
    assert_eq!(client.rewind(64), Ok(64));
    assert_eq!(client.writei(&[5; 32]), Ok(32));
    assert_eq!(take(&mut card, 96), runs(&[(32, 100), (32, 5), (32, 0)]));
}

#[test]
fn a_frame_that_was_written_over_a_rewound_one_stays() {
    let (ring, _card) = open_ring(1, 1);
    let mut client = open_client(&ring, 1);
    assert_eq!(client.writei(&[100; 128]), Ok(128));
    assert_eq!(client.rewind(64), Ok(64));
    assert_eq!(client.rewindable(), Ok(64));
    assert_eq!(client.writei(&[5; 80]), Ok(80));
    assert_eq!(client.rewindable(), Ok(16));
}

#[test]
fn a_client_that_rewinds_all_is_an_underrun() {
    let (ring, _card) = open_ring(1, 1);
    let mut client = open_client(&ring, 1);
    assert_eq!(client.writei(&[100; 128]), Ok(128));
    assert_eq!(client.rewind(1000), Ok(128));
    assert_eq!(client.state(), State::Running);
    assert_eq!(client.writei(&[5; 1]), Err(Error::Xrun));
}

#[test]
fn a_drop_lets_what_is_placed_be_played() {
    let (ring, mut card) = open_ring(1, 1);
    let mut client = open_client(&ring, 1);
    assert_eq!(client.writei(&[5; PERIOD]), Ok(PERIOD));
    client.drop_pending().unwrap();
    assert_eq!(client.state(), State::Setup);
    assert_eq!(take(&mut card, 128), runs(&[(64, 0), (64, 5)]));
}

#[test]
fn an_unplugged_card_is_gone_for_every_client() {
    let (ring, mut card) = open_ring(1, 2);
    let mut playing = open_client(&ring, 1);
    let mut waiting = open_client(&ring, 1);
    assert_eq!(playing.writei(&[5; PERIOD]), Ok(PERIOD));
    card.unplug();
    for client in [&mut playing, &mut waiting] {
        assert_eq!(client.writei(&[5; PERIOD]), Err(Error::NoDevice));
        assert_eq!(client.state(), State::Disconnected);
        assert_eq!(client.prepare(), Err(Error::NoDevice));
    }
}

#[test]
fn clients_come_and_go_in_threads() {
    const PLACES: u32 = 4;
    let (ring, mut card) = open_ring(2, PLACES);
    thread::scope(|scope| {
        let threads: Vec<_> = (0..6)
            .map(|_| scope.spawn(|| (0..100).for_each(|_| come_and_go(&ring))))
            .collect();
        while threads.iter().any(|thread| !thread.is_finished()) {
            for sample in take(&mut card, PERIOD) {
                assert!((0..=PLACES as i16).contains(&sample), "{sample}");
            }
            thread::yield_now();
        }
    });
    take(&mut card, 2048);
    let open: Vec<Client> = (0..PLACES).map(|_| ring.open_client().unwrap()).collect();
    assert_eq!(ring.open_client().err(), Some(Error::Again));
    drop(open);
}

/// Opens a client, writes samples of 1 for a while, and drops it.
fn come_and_go(ring: &Ring) {
    let Ok(mut client) = ring.open_client() else {
        return thread::yield_now();
    };
    client.hw_params(&hw_params(2)).unwrap();
    for _ in 0..20 {
        match client.writei(&[1; 2 * PERIOD]) {
            Ok(_) => {}
            Err(Error::Again) => thread::yield_now(),
            Err(Error::Xrun) => client.prepare().unwrap(),
            Err(error) => panic!("{error}"),
        }
    }
}
