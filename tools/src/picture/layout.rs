//! Where each event stands from left to right.
//!
//! Consecutive records share a column as long as no event stands beside its cause, so that the order of the records
//! is kept, and the picture does not get as wide as there are records.

use super::story::{Event, Kind, Story};
use super::svg::mono_width;
use super::words;

/// Lines: one for each process, and line 0 above them for records that are about none.
const LINES: usize = gerzulan::MAX_PROCESSES + 1;

/// More columns than these are put closer together, but never closer than this.
const COMFORTABLE: f64 = 100.0;
const NARROWEST: f64 = 3.0;

/// Sizes in pixels. Few processes have room for what they hold at each close.
pub struct Look {
    pub tells_entries: bool,
    /// From line to line.
    pub pitch: f64,
    /// From event to event of one process in a column.
    pub step: f64,
    /// Between columns, and between those where messages go from the one to the next.
    pub gap: f64,
    pub flight: f64,
    pub label: f64,
}

impl Look {
    fn of(n: u8) -> Look {
        let (tells_entries, label) = (n <= 4, if n <= 4 { 11.0 } else { 9.0 });
        let (pitch, step, gap, flight) = match n {
            0..=4 => (66.0, 12.0, 20.0, 60.0),
            5..=8 => (46.0, 6.0, 8.0, 18.0),
            _ => (42.0, 5.0, 6.0, 12.0),
        };
        Look { tells_entries, pitch, step, gap, flight, label }
    }
}

pub struct Layout {
    pub look: Look,
    /// Of each event of the story.
    pub x: Vec<f64>,
    /// Of each column its place and its first record.
    pub columns: Vec<(f64, usize)>,
    /// Where the lines begin and end.
    pub left: f64,
    pub end: f64,
}

/// The column of an event, and how far into it.
#[derive(Clone, Copy)]
struct Place {
    column: usize,
    offset: f64,
}

/// How far after `last` an event of the same process stands, if the two may share a column: sends may, arrivals may,
/// and a crash may follow either, as the last that the process does. It then shows between which sends it was.
fn follows(kind: &Kind, last: &Kind, look: &Look) -> Option<f64> {
    match (last, kind) {
        (Kind::Send, Kind::Send) | (Kind::Arrive, Kind::Arrive) => Some(look.step),
        (Kind::Send | Kind::Arrive, Kind::Crash(_)) => Some((look.step * 1.6).max(11.0)),
        _ => None,
    }
}

impl Layout {
    pub fn of(story: &Story) -> Layout {
        let look = Look::of(story.n());
        let places = places(story, &look);
        let gaps = gaps(story, &places, &look);
        let mut layout = Layout { look, x: Vec::new(), columns: Vec::new(), left: 36.0, end: 0.0 };
        let mut free = [layout.left + 6.0; LINES];
        let mut next = layout.left + 6.0;
        let mut first = 0;
        while first < places.len() {
            let of_column = |place: &&Place| place.column == places[first].column;
            let last = first + places[first..].iter().take_while(of_column).count();
            next += gaps[places[first].column];
            next = layout.column(story, &places, first..last, next, &mut free);
            first = last;
        }
        // Room for the stub of a message that was sent last.
        layout.end = free.iter().fold(next, |end, &x| end.max(x)) + 24.0;
        layout
    }

    /// Places the events of a column at or after `from`, and gives where it ends.
    fn column(
        &mut self,
        story: &Story,
        places: &[Place],
        range: std::ops::Range<usize>,
        from: f64,
        free: &mut [f64; LINES],
    ) -> f64 {
        let mut x = from;
        for i in range.clone().filter(|&i| places[i].offset == 0.0) {
            let event = &story.events[i];
            x = x.max(free[event.line as usize] + self.extents(story, event).0);
        }
        self.columns.push((x, story.events[range.start].record));
        let mut end = x;
        for i in range {
            let event = &story.events[i];
            let own = x + places[i].offset;
            self.x.push(own);
            end = end.max(own);
            free[event.line as usize] = own + self.extents(story, event).1;
        }
        end
    }

    /// How much of its line an event takes to the left and to the right, with what is written at it.
    fn extents(&self, story: &Story, event: &Event) -> (f64, f64) {
        let half = |characters: usize| mono_width(characters, self.look.label) / 2.0 + 3.0;
        match &event.kind {
            Kind::Start(value) => {
                let width = half(words::value(*value, story.has_diet()).len());
                (width, width)
            }
            Kind::Close { held, .. } if self.look.tells_entries => {
                let width = half(words::entries(held, story.n(), story.has_diet()).join(" ").len());
                (width, width)
            }
            Kind::Send | Kind::Arrive => (self.look.step, 2.0),
            Kind::Close { decides: true, .. } | Kind::Learn => (10.0, 10.0),
            _ => (8.0, 8.0),
        }
    }
}

fn places(story: &Story, look: &Look) -> Vec<Place> {
    let causes = causes(story);
    let mut places: Vec<Place> = Vec::with_capacity(causes.len());
    let mut column = 0;
    // The last event of each line in this column.
    let mut last: [Option<usize>; LINES] = [None; LINES];
    for (i, event) in story.events.iter().enumerate() {
        let line = event.line as usize;
        let caused_here = causes[i].is_some_and(|cause| places[cause].column == column);
        let joins = last[line].map_or(Some(0.0), |before| {
            let step = follows(&event.kind, &story.events[before].kind, look)?;
            Some(places[before].offset + step)
        });
        let offset = joins.filter(|_| !caused_here).unwrap_or_else(|| {
            column += 1;
            last = [None; LINES];
            0.0
        });
        last[line] = Some(i);
        places.push(Place { column, offset });
    }
    places
}

/// Of each event the one that must stand in an earlier column: of an arrival the send, of a suspicion the crash.
fn causes(story: &Story) -> Vec<Option<usize>> {
    let mut causes = vec![None; story.events.len()];
    for message in &story.messages {
        if let Some(arrived) = message.arrived {
            causes[arrived] = Some(message.sent);
        }
    }
    let mut crashes = [None; LINES];
    for (i, event) in story.events.iter().enumerate() {
        match event.kind {
            Kind::Crash(_) => crashes[event.line as usize] = Some(i),
            Kind::Suspect(other) => causes[i] = crashes.get(other as usize).copied().flatten(),
            _ => {}
        }
    }
    causes
}

/// The gap before each column: wider where many messages go from the column before to this one, and narrower where
/// there are very many columns.
fn gaps(story: &Story, places: &[Place], look: &Look) -> Vec<f64> {
    let columns = places.last().map_or(0, |place| place.column + 1);
    let mut crossing = vec![0; columns];
    for message in &story.messages {
        if let Some(arrived) = message.arrived {
            let (from, to) = (places[message.sent].column, places[arrived].column);
            crossing[to] += usize::from(from + 1 == to);
        }
    }
    let squeeze = (COMFORTABLE / columns.max(1) as f64).min(1.0);
    let gap = |(column, &count): (usize, &usize)| match (column, count) {
        (0, _) => 0.0,
        (_, 0) => (look.gap * squeeze).max(NARROWEST),
        (_, count) => (look.flight * squeeze).max(NARROWEST) + 0.7 * count.min(120) as f64,
    };
    crossing.iter().enumerate().map(gap).collect()
}
