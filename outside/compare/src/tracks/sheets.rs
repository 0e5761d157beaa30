//! Good sheets of either form: of lively sessions on two tracks, and of one.

use model::{sheet_length, Entry, MOST_EVENTS, ONE_TRACK, TWO_TRACKS, UNANSWERED};

use crate::histories::{lively_event, near_stamp, some_posts, Next};
use crate::random::Random;
use crate::sheets::{some_count, Sheet};
use crate::tracks::two::{event, tables_of, Two, CIRCUITS};

/// A form, a table as block 0 has it, a start stamp, and events with their tracks.
#[derive(Clone, Debug, PartialEq)]
pub struct TrackSheet {
    pub form: u32,
    pub table: Vec<u32>,
    pub stamp: u32,
    pub events: Vec<Entry>,
    pub tracks: Vec<u32>,
}

impl From<Sheet> for TrackSheet {
    fn from(sheet: Sheet) -> Self {
        TrackSheet {
            form: ONE_TRACK,
            table: sheet.kinds,
            stamp: sheet.stamp,
            tracks: vec![0; sheet.events.len()],
            events: sheet.events,
        }
    }
}

impl TrackSheet {
    pub fn posts(&self) -> usize {
        match self.form {
            TWO_TRACKS => self.table.len() / 2,
            _ => self.table.len(),
        }
    }

    pub fn length(&self) -> usize {
        sheet_length(self.events.len())
    }

    /// What the model returns and writes of it.
    pub fn write(&self, out: &mut [u8]) -> u32 {
        let (events, tracks) = (&self.events, &self.tracks);
        model::write_tracks(self.form, &self.table, self.stamp, events, tracks, out)
    }

    pub fn bytes(&self) -> Vec<u8> {
        let mut out = vec![0; self.length()];
        assert_eq!(
            self.write(&mut out),
            0,
            "the generator's sheets can be written"
        );
        out
    }

    /// The sheet that these bytes are, if they are a good one.
    pub fn of(bytes: &[u8]) -> Option<TrackSheet> {
        let (mut table, mut events) = (vec![0; 65], vec![[0; 4]; MOST_EVENTS]);
        let mut tracks = vec![0; MOST_EVENTS];
        let found = model::read_tracks(bytes, &mut table, &mut events, &mut tracks);
        let posts = found.posts as usize;
        table.truncate(if found.tracks == 2 {
            2 * posts + 1
        } else {
            posts
        });
        events.truncate(found.events as usize);
        tracks.truncate(found.events as usize);
        (found.number == 0).then_some(TrackSheet {
            form: found.tracks,
            table,
            stamp: found.stamp,
            events,
            tracks,
        })
    }

    /// The same events with the answers that working gives them.
    pub fn worked(mut self) -> TrackSheet {
        self.events
            .iter_mut()
            .for_each(|event| event[2] = UNANSWERED);
        let sheet = self.bytes();
        let mut out = sheet.clone();
        model::work_tracks(&sheet, &mut out);
        TrackSheet::of(&out).expect("a sheet that was worked can be read")
    }
}

/// An unanswered sheet of two tracks, of a lively session of at least so many events.
pub fn some(random: &mut Random, least: usize) -> TrackSheet {
    let posts = some_posts(random);
    let count = some_count(random);
    let count = count + if count < least { least } else { 0 };
    lively(random, posts, count, lively_event)
}

/// The same of so many posts and events.
pub fn lively(random: &mut Random, posts: usize, count: usize, next: Next) -> TrackSheet {
    let circuit = random.pick(&CIRCUITS);
    on_circuit(random, circuit, [posts, count], next)
}

/// The same on this circuit.
pub fn on_circuit(
    random: &mut Random,
    circuit: u32,
    [posts, count]: [usize; 2],
    next: Next,
) -> TrackSheet {
    let tables = tables_of(random, posts);
    let stamp = random.edge_word();
    let mut two = Two::from_start(&tables, circuit, stamp);
    let (mut events, mut tracks) = (Vec::new(), Vec::new());
    for _ in 0..count {
        let at = near_stamp(random, two.head.last);
        let [track, number, place, stamp] = event(random, &mut two, at, next);
        events.push([number, place, UNANSWERED, stamp]);
        tracks.push(track);
    }
    let [first, second] = tables;
    TrackSheet {
        form: TWO_TRACKS,
        table: [first, second, vec![circuit]].concat(),
        stamp,
        events,
        tracks,
    }
}

/// The bytes of a good sheet of two tracks, of so many posts and events, answered or not.
pub fn two_tracks(random: &mut Random, posts: usize, count: usize, answered: bool) -> Vec<u8> {
    let sheet = lively(random, posts, count, lively_event);
    let sheet = if answered { sheet.worked() } else { sheet };
    sheet.bytes()
}
