//! A bank that plays back a lent list of records.

use crate::bank::{port_index, Bank, Corners, Reading, PORTS};
use crate::fault::Fault;

/// Only so many records of a list count.
const COUNTED: usize = 65_535;

#[derive(Clone, Copy, Debug, PartialEq, Eq)]
pub struct Record {
    pub port: u8,
    pub digits: i32,
}

/// Where the playback of one port stands.
#[derive(Clone, Copy, Debug, Default)]
struct Track {
    /// Index from which the next record of the port is looked for.
    next: u16,
    left: u16,
}

#[derive(Clone, Debug)]
pub struct Recording<'a> {
    corners: Corners,
    records: &'a [Record],
    tracks: [Track; PORTS],
}

impl<'a> Recording<'a> {
    pub fn new(records: &'a [Record]) -> Self {
        let records = &records[..records.len().min(COUNTED)];
        let mut tracks = [Track::default(); PORTS];
        for record in records {
            if let Some(track) = tracks.get_mut(usize::from(record.port)) {
                track.left += 1;
            }
        }
        Recording { corners: Corners::default(), records, tracks }
    }

    /// Gives the port a gauge with this corner factor in thousandths.
    pub fn fit(&mut self, port: u8, factor: u16) -> Result<(), Fault> {
        self.corners.fit(port, factor)
    }
}

impl Bank for Recording<'_> {
    fn gauges(&self, port: u8) -> Result<u8, Fault> {
        Ok(u8::from(self.corners.has_gauge(port_index(port)?)))
    }

    fn waiting(&self, port: u8) -> Result<u16, Fault> {
        let index = port_index(port)?;
        if self.corners.has_gauge(index) {
            Ok(self.tracks[index].left)
        } else {
            Ok(0)
        }
    }

    fn draw(&mut self, port: u8) -> Reading {
        let index = usize::from(port);
        let track = &mut self.tracks[index];
        let mut at = usize::from(track.next);
        while self.records[at].port != port {
            at += 1;
        }
        // `at` is below 65,535, so the next index still has 16 bits.
        track.next = at as u16 + 1;
        track.left -= 1;
        self.corners.reading(index, self.records[at].digits)
    }
}
