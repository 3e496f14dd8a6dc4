//! The twin of crates/bench_transport, which says what each row is. The original's calls test neither transport nor map, so
//! the rows `advanced` and `places_frame_at_bar` are its `advance` and `frame_at_bar` again.

use crate::benching::Asked;
use crate::meter::{map as meter_map, questions};
use crate::tempo::map as tempo_map;
use tono_core::access;
use tono_core::dsl::TempoPoint;
use tono_core::runtime::transport::{Advance, Transport};
use tono_core::units::{Beat, MeterPoint};

/// A transport that plays from frame 0.
pub fn clock(pickup: Option<Beat>, meter: &[MeterPoint], tempo: &[TempoPoint]) -> Transport {
    let mut t = access::transport(48_000, 120.0, 4, pickup, u64::MAX, meter.to_vec(), tempo.to_vec());
    t.play();
    t
}

/// A position, with what the advance did in the highest bits.
fn moved_word(position: u64, did: Advance) -> u64 {
    position ^ u64::from(did.wrapped) << 63 ^ u64::from(did.finished) << 62
}

pub fn rows(asked: &Asked) {
    let (meter, tempo) = (meter_map(), tempo_map());
    let frames = questions(4096);
    asked.row_or(5000, "empty", "any", |k, _| u64::from(frames[k]));

    for call in ["advance", "advanced"] {
        let mut t = clock(Some(Beat::from_int(1)), &[], &[]);
        assert!(t.set_loop_frames(1000, 97_000));
        asked.row_or(5000, call, "loop", |k, _| {
            let did = t.advance(u64::from(frames[k]));
            moved_word(t.position_frames(), did)
        });
    }
    for call in ["frame_at_bar", "places_frame_at_bar"] {
        for (size, points, few) in [("0", 0, 5000), ("128", 128, 1000), ("256", 256, 1000)] {
            let t = clock(None, &meter[..points], &tempo[..4 * points]);
            let bars = questions(4 * points + 8);
            asked.row_or(few, call, size, |k, _| t.frame_at_bar(bars[k]));
        }
    }
    for (size, points, few) in [("0", 0, 5000), ("128", 128, 200), ("256", 256, 50)] {
        let mut t = clock(None, &meter[..points], &tempo[..4 * points]);
        let frames = questions((17 * points + 34) * 24_000);
        asked.row_or(few, "position_bars", size, |k, _| {
            t.seek_frame(u64::from(frames[k]));
            t.position_bars().to_bits()
        });
    }
}
