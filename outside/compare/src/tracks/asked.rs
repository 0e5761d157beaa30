//! What the calls on sheets of either form have come upon in a run: which word of block 0 or
//! which bit of an event word alone was wrong, and what each call was given beside it.

use model::{test_tracks, BLOCK_BYTES, MOST_BLOCKS, TWO_TRACKS};

use crate::counts::Wanted;
use crate::sheets::{get, put, renew};
use crate::tables::Place;
use crate::tracks::request::TrackRequest;
use crate::tracks::sheets::TrackSheet;

/// A call that is given a sheet, and its reply.
pub struct Asked {
    pub request: TrackRequest,
    pub reply: Vec<u32>,
}

/// What is wanted of each call that reads a sheet.
pub const OF_ALL: &[Wanted<Asked>] = &[
    ("two tracks, good", |a| a.is_two() && a.is_good()),
    ("two tracks, polarised, good", |a| a.good_on(0)),
    ("two tracks, vibrated, good", |a| a.good_on(1)),
    ("two tracks of 2 posts, good", |a| a.good_of(2)),
    ("two tracks of 32 posts, good", |a| a.good_of(32)),
    ("two tracks, 3,780 events, good", |a| {
        a.is_two() && a.bytes().len() == BLOCK_BYTES * MOST_BLOCKS && a.is_good()
    }),
    ("one track, good", |a| !a.is_two() && a.is_good()),
    ("two tracks, 18", |a| a.is_two() && a.number() == 18),
    ("two tracks, 19 for block 0", |a| a.two_gets(19, true)),
    ("two tracks, 19 for a later block", |a| {
        a.two_gets(19, false)
    }),
    ("two tracks, 20 for block 0", |a| a.two_gets(20, true)),
    ("two tracks, 20 for a later block", |a| {
        a.two_gets(20, false)
    }),
    ("two tracks, 24", |a| a.two_gets(24, false)),
    ("only word 0 wrong", |a| a.only_word(0, &[1, 2])),
    ("only word 0 wrong, and it is 1", |a| {
        a.is_20() && a.word(0) == 1 && a.only_word(0, &[2])
    }),
    ("only N wrong", |a| a.only_n()),
    ("only track 1's first kind wrong", |a| {
        a.only_kind(0, Place::First)
    }),
    ("only track 1's kind inside wrong", |a| {
        a.only_kind(0, Place::Inside)
    }),
    ("only track 1's last kind wrong", |a| {
        a.only_kind(0, Place::Last)
    }),
    ("only track 2's first kind wrong", |a| {
        a.only_kind(1, Place::First)
    }),
    ("only track 2's kind inside wrong", |a| {
        a.only_kind(1, Place::Inside)
    }),
    ("only track 2's last kind wrong", |a| {
        a.only_kind(1, Place::Last)
    }),
    ("only the circuit wrong", |a| a.only_circuit()),
    ("the circuit is 2, all else right", |a| {
        a.only_circuit() && a.word(a.circuit_at()) == 2
    }),
    ("only the word behind the circuit wrong", |a| {
        a.is_two() && a.only_word(a.circuit_at() + 1, &[0])
    }),
    ("only word 126 wrong", |a| {
        a.is_two() && a.only_word(126, &[0])
    }),
    ("both tracks named in a good sheet", |a| a.names_both()),
    ("24 for bit 17 alone, two tracks", |a| {
        a.bad_bits() == Some((2, 1 << 17))
    }),
    (
        "24 for a bit above 17 alone, two tracks",
        |a| matches!(a.bad_bits(), Some((2, bits)) if bits > 1 << 17 && bits.is_power_of_two()),
    ),
    ("24 for bit 17, of track 2", |a| {
        a.bad_bits() == Some((2, 3 << 16))
    }),
    ("24 for bit 16 alone, one track", |a| {
        a.bad_bits() == Some((1, 1 << 16))
    }),
];

pub const OF_READING: &[Wanted<Asked>] = &[
    ("21, only the table room short, two tracks", |a| {
        a.short() == Some((2, [true, false, false]))
    }),
    ("21, only the events room short, two tracks", |a| {
        a.short() == Some((2, [false, true, false]))
    }),
    ("21, only the tracks room short, two tracks", |a| {
        a.short() == Some((2, [false, false, true]))
    }),
    ("21, only the table room short, one track", |a| {
        a.short() == Some((1, [true, false, false]))
    }),
    ("21, only the events room short, one track", |a| {
        a.short() == Some((1, [false, true, false]))
    }),
    ("21, only the tracks room short, one track", |a| {
        a.short() == Some((1, [false, false, true]))
    }),
];

pub const OF_WORKING: &[Wanted<Asked>] = &[
    ("worked, 25 among the answers", |a| {
        a.worked_with(|answer| answer == 25)
    }),
    ("20 for an answered event, two tracks", |a| {
        a.number() == 20 && a.is_two() && a.is_good()
    }),
    ("21, two tracks", |a| a.number() == 21 && a.is_two()),
    ("21, one track", |a| a.number() == 21 && !a.is_two()),
];

pub const OF_QUESTIONS: &[Wanted<Asked>] = &[
    ("8 on track 1, an event named", |a| a.tells(0, 8)),
    ("8 on track 2, an event named", |a| a.tells(1, 8)),
    ("9 on track 1, an event named", |a| a.tells(0, 9)),
    ("9 on track 2, an event named", |a| a.tells(1, 9)),
    ("13 on track 1, an event named", |a| a.tells(0, 13)),
    ("13 on track 2, an event named", |a| a.tells(1, 13)),
    ("13, RL up from the start, track 1", |a| a.up_from_start(0)),
    ("13, RL up from the start, track 2", |a| a.up_from_start(1)),
    ("the other track's same event since then", |a| {
        a.other_since()
    }),
    ("29 for an event answered 25", |a| {
        a.number() == 29 && a.chosen().is_some_and(|(_, event)| event[2] == 25)
    }),
    ("29, not as worked", |a| {
        a.number() == 29
            && a.chosen()
                .is_some_and(|(_, event)| [8, 9, 13].contains(&event[2]))
    }),
];

impl Asked {
    fn number(&self) -> u32 {
        self.reply[0]
    }

    fn is_20(&self) -> bool {
        self.number() == 20 && self.reply[1] == 0
    }

    fn bytes(&self) -> &[u8] {
        match &self.request {
            TrackRequest::Read { sheet, .. }
            | TrackRequest::Work { sheet, .. }
            | TrackRequest::Why { sheet, .. } => sheet,
            _ => &[],
        }
    }

    /// A word of block 0; 0 where there is no such block.
    fn word(&self, at: usize) -> u32 {
        match self.bytes().len() >= BLOCK_BYTES {
            true => get(self.bytes(), 0, at),
            false => 0,
        }
    }

    fn is_two(&self) -> bool {
        self.word(0) == TWO_TRACKS
    }

    fn is_good(&self) -> bool {
        test_tracks(self.bytes()).number == 0
    }

    fn two_gets(&self, number: u32, block_0: bool) -> bool {
        self.is_two() && self.number() == number && (self.reply[1] == 0) == block_0
    }

    fn circuit_at(&self) -> usize {
        (3 + 2 * self.word(1) as usize).min(125)
    }

    fn good_on(&self, circuit: u32) -> bool {
        self.is_two() && self.word(self.circuit_at()) == circuit && self.is_good()
    }

    fn good_of(&self, posts: u32) -> bool {
        self.is_two() && self.word(1) == posts && self.is_good()
    }

    /// 20 for block 0, and good with one of these for this word.
    fn only_word(&self, at: usize, right: &[u32]) -> bool {
        let mends = |value: &u32| {
            let mut mended = self.bytes().to_vec();
            put(&mut mended, 0, at, *value);
            renew(&mut mended, 0);
            test_tracks(&mended).number == 0
        };
        self.is_20() && right.iter().any(mends)
    }

    fn only_n(&self) -> bool {
        let all: Vec<u32> = (2..=32).collect();
        self.is_two() && self.only_word(1, &all)
    }

    /// Whatever posts stand at that place of that track's table.
    fn only_kind(&self, track: usize, place: Place) -> bool {
        let posts = self.word(1).clamp(2, 32) as usize;
        let right = [0, 2, 1][place as usize];
        let mut there = (0..posts).filter(|post| Place::of(*post, posts) == place);
        let wrong_at = |post| self.only_word(3 + track * posts + post, &[right]);
        self.is_20() && self.is_two() && there.any(wrong_at)
    }

    fn only_circuit(&self) -> bool {
        self.is_two() && self.only_word(self.circuit_at(), &[0])
    }

    fn names_both(&self) -> bool {
        let sheet = TrackSheet::of(self.bytes());
        sheet.is_some_and(|sheet| sheet.tracks.contains(&0) && sheet.tracks.contains(&1))
    }

    /// The form and the upper bits of the event word that 24 names.
    fn bad_bits(&self) -> Option<(u32, u32)> {
        let [number, block, position] = [self.reply[0], self.reply[1], self.reply[2]];
        let bits = || get(self.bytes(), block as usize, 1 + 2 * position as usize);
        (number == 24).then(|| (self.word(0), bits() & 0xFFFF_0000))
    }

    /// Of a reading that was refused 21, the form and which of the rooms were too short.
    fn short(&self) -> Option<(u32, [bool; 3])> {
        let TrackRequest::Read { sheet, rooms, .. } = &self.request else {
            return None;
        };
        let sheet = TrackSheet::of(sheet).filter(|_| self.number() == 21)?;
        let (words, events) = (sheet.table.len(), sheet.events.len());
        let [table, entries, tracks] = *rooms;
        Some((
            sheet.form,
            [table < words, entries < events, tracks < events],
        ))
    }

    fn worked_with(&self, wanted: fn(u32) -> bool) -> bool {
        let worked = || TrackSheet::of(self.bytes()).map(TrackSheet::worked);
        let has = |sheet: TrackSheet| sheet.events.iter().any(|event| wanted(event[2]));
        self.number() == 0 && self.is_two() && worked().is_some_and(has)
    }

    /// The sheet of a question, and the chosen event.
    fn chosen(&self) -> Option<(TrackSheet, [u32; 4])> {
        let TrackRequest::Why { sheet, position } = &self.request else {
            return None;
        };
        let sheet = TrackSheet::of(sheet).filter(|sheet| sheet.form == TWO_TRACKS)?;
        let event = *sheet.events.get((*position as usize).checked_sub(1)?)?;
        Some((sheet, event))
    }

    /// The track and the answer of the chosen event, and its place from 0, where one is told.
    fn told(&self) -> Option<(TrackSheet, usize, u32)> {
        let TrackRequest::Why { position, .. } = &self.request else {
            return None;
        };
        let (sheet, event) = self.chosen().filter(|_| self.number() == 0)?;
        Some((sheet, *position as usize - 1, event[2]))
    }

    fn tells(&self, track: u32, answer: u32) -> bool {
        let is_so = |(sheet, at, given): (TrackSheet, usize, u32)| {
            (sheet.tracks[at], given) == (track, answer)
        };
        self.reply[2] > 0 && self.told().is_some_and(is_so)
    }

    fn up_from_start(&self, track: u32) -> bool {
        let is_so = |(sheet, at, _): (TrackSheet, usize, u32)| sheet.tracks[at] == track;
        self.reply[2] == 0 && self.told().is_some_and(is_so)
    }

    /// Since the event that is named, the other track took the same event at the same place.
    fn other_since(&self) -> bool {
        let Some((sheet, at, _)) = self.told().filter(|_| self.reply[2] > 0) else {
            return false;
        };
        let named = self.reply[2] as usize - 1;
        let [number, place, ..] = sheet.events[named];
        (named + 1..at).any(|between| {
            sheet.tracks[between] != sheet.tracks[at]
                && sheet.events[between][..3] == [number, place, 0]
        })
    }
}

/// What is wanted of writing.
pub const WRITTEN: &[Wanted<Asked>] = &[
    ("taken, two tracks", |a| a.writes(0, 2)),
    ("taken, one track", |a| a.writes(0, 1)),
    ("1 for the form alone", |a| a.writes(1, 0) || a.writes(1, 3)),
    ("1, two tracks", |a| a.writes(1, 2)),
    ("1, one track", |a| a.writes(1, 1)),
    ("20, two tracks", |a| a.writes(20, 2)),
    ("20, one track, track 2 named", |a| {
        a.writes(20, 1) && a.a_track(1)
    }),
    ("20, only a track of 2 wrong", |a| {
        a.writes(20, 2) && a.a_track(2) && a.only_tracks()
    }),
    ("20, only a track above 2 wrong", |a| {
        a.writes(20, 2) && a.only_tracks() && !a.a_track(2) && a.same_length()
    }),
    ("20, only a track too few", |a| {
        a.writes(20, 2) && a.length_differs(-1)
    }),
    ("20, only a track too many", |a| {
        a.writes(20, 2) && a.length_differs(1)
    }),
    ("20, a field", |a| a.writes(20, 2) && !a.only_tracks()),
    ("18", |a| a.writes(18, 2)),
    ("20 before 18", |a| a.writes(20, 2) && a.events() > 3780),
    ("21, two tracks", |a| a.writes(21, 2)),
    ("21, one track", |a| a.writes(21, 1)),
    ("a full sheet of two tracks", |a| {
        a.writes(0, 2) && a.events() == 3780
    }),
];

impl Asked {
    fn writes(&self, number: u32, of: u32) -> bool {
        let form = matches!(&self.request, TrackRequest::Write { sheet, .. } if sheet.form == of);
        form && self.number() == number
    }

    /// The events and tracks of a write; none of another call.
    fn lists(&self) -> (&[[u32; 4]], &[u32]) {
        match &self.request {
            TrackRequest::Write { sheet, .. } => (&sheet.events, &sheet.tracks),
            _ => (&[], &[]),
        }
    }

    fn events(&self) -> usize {
        self.lists().0.len()
    }

    fn a_track(&self, of: u32) -> bool {
        self.lists().1.contains(&of)
    }

    fn same_length(&self) -> bool {
        self.lists().0.len() == self.lists().1.len()
    }

    /// No event is out of its field.
    fn only_tracks(&self) -> bool {
        let fits =
            |[number, post, answer, _]: &[u32; 4]| *number < 32 && *post < 64 && *answer < 32;
        self.lists().0.iter().all(fits)
    }

    fn length_differs(&self, by: isize) -> bool {
        let (events, tracks) = self.lists();
        let right = tracks.iter().all(|track| *track < 2);
        right && self.only_tracks() && tracks.len() as isize - events.len() as isize == by
    }
}
