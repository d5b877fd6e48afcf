//! The diagram itself: a line for each process, its marks, and the messages between them.

use super::frame::Frame;
use super::layout::Layout;
use super::marks::{hue, Mark, CRASHED, DECIDED, INK};
use super::story::{Event, Kind, Message, Story};
use super::svg::{Svg, MONO, SANS};
use super::words;

/// What is drawn, and where.
pub struct Canvas<'a> {
    pub story: &'a Story,
    pub layout: &'a Layout,
    pub frame: &'a Frame,
}

impl Canvas<'_> {
    pub fn paint(&self, svg: &mut Svg) {
        svg.group("class=\"lines\" fill=\"none\" stroke-width=\"1.4\"", |svg| {
            for process in words::processes(&self.story.bench) {
                self.line(svg, process);
            }
        });
        self.messages(svg);
        self.unsent(svg);
        self.marks(svg);
        self.labels(svg);
    }

    fn x(&self, event: usize) -> f64 {
        self.layout.x[event]
    }

    fn point(&self, event: usize) -> (f64, f64) {
        (self.x(event), self.frame.y(self.story.events[event].line))
    }

    /// Where the first event of a process stands that is of this sort.
    fn first(&self, process: u8, sort: impl Fn(&Kind) -> bool) -> Option<f64> {
        let found = |event: &Event| event.line == process && sort(&event.kind);
        self.story.events.iter().position(found).map(|event| self.x(event))
    }

    /// Dotted before the start, green from the decision on, very faint after a crash.
    fn line(&self, svg: &mut Svg, process: u8) {
        let end = self.layout.end;
        let decides = |kind: &Kind| matches!(kind, Kind::Close { decides: true, .. } | Kind::Learn);
        let crash = self.first(process, |kind| matches!(kind, Kind::Crash(_))).unwrap_or(end);
        let start = self.first(process, |kind| matches!(kind, Kind::Start(_))).unwrap_or(crash);
        let decision = self.first(process, decides).unwrap_or(crash);
        let dotted = format!("stroke=\"{INK}\" stroke-opacity=\"0.6\" stroke-dasharray=\"1.5 3.5\"");
        self.part(svg, process, (self.layout.left, start), &dotted);
        self.part(svg, process, (start, decision), &format!("stroke=\"{INK}\""));
        self.part(svg, process, (decision, crash), &format!("stroke=\"{DECIDED}\""));
        self.part(svg, process, (crash, end), "stroke=\"#e4e4e4\"");
    }

    fn part(&self, svg: &mut Svg, process: u8, (from, to): (f64, f64), style: &str) {
        let y = self.frame.y(process);
        if from < to {
            svg.path("line", &[(from, y), (to, y)], style);
        }
    }

    /// Round by round, so that a colour is said once; the decisions last.
    fn messages(&self, svg: &mut Svg) {
        for round in rounds(self.story) {
            let of_round = || self.story.messages.iter().filter(|message| message.round == round);
            let width = if self.story.n() > 8 { 0.8 } else { 1.1 };
            let dashes = if round == 0 { " stroke-dasharray=\"5 2.5\"" } else { "" };
            let style = format!("fill=\"none\" stroke=\"{}\" stroke-width=\"{width}\"{dashes}", hue(round));
            let opacity = if self.story.n() > 8 { 0.5 } else { 0.7 };
            let arrows = format!(
                "class=\"arrows\" {style} stroke-opacity=\"{opacity}\" marker-end=\"url(#head-{})\"",
                head(round)
            );
            svg.group(&arrows, |svg| of_round().for_each(|message| self.arrow(svg, message)));
            svg.group(&format!("class=\"stubs\" {style} stroke-opacity=\"0.9\""), |svg| {
                of_round().for_each(|message| self.stub(svg, message));
            });
        }
    }

    fn arrow(&self, svg: &mut Svg, message: &Message) {
        if let Some(arrived) = message.arrived {
            svg.path("arrow", &[self.point(message.sent), self.point(arrived)], "");
        }
    }

    /// The first part of the way of a message that has not arrived.
    fn stub(&self, svg: &mut Svg, message: &Message) {
        if message.arrived.is_some() {
            return;
        }
        let (x, y) = self.point(message.sent);
        let (dx, dy) = (self.layout.look.pitch * 0.4, self.frame.y(message.to) - y);
        let length = (dx * dx + dy * dy).sqrt().max(1.0);
        let at = |way: f64| (x + dx / length * way, y + dy / length * way);
        svg.path("stub", &[(x, y), at(13.0)], "");
        let (x, y) = at(15.0);
        svg.circle("", x, y, 2.0, "stroke-dasharray=\"none\"");
    }

    /// What a process still owed when it crashed: from its cross a little way to each who never gets it.
    fn unsent(&self, svg: &mut Svg) {
        svg.group(&format!("class=\"unsents\" {}", unsent_style()), |svg| {
            for (event, to) in owed_at_crashes(self.story) {
                let (x, y) = self.point(event);
                let (dx, dy) = (self.layout.look.pitch * 0.6, self.frame.y(to) - y);
                let length = (dx * dx + dy * dy).sqrt().max(1.0);
                let at = |way: f64| (x + dx / length * way, y + dy / length * way);
                svg.path("unsent", &[at(8.0), at(26.0)], "");
            }
        });
    }

    fn marks(&self, svg: &mut Svg) {
        for mark in Mark::ALL {
            let of_mark = |event: &usize| Mark::of(&self.story.events[*event].kind) == Some(mark);
            let events: Vec<usize> = (0..self.story.events.len()).filter(of_mark).collect();
            if events.is_empty() {
                continue;
            }
            svg.group(&format!("class=\"marks\" {}", mark.style()), |svg| {
                for event in events {
                    let (x, y) = self.point(event);
                    mark.shape(svg, true, x, y);
                }
            });
        }
    }

    /// What is written at marks, each on a white rim so that arrows do not cross it out.
    fn labels(&self, svg: &mut Svg) {
        let rim = "stroke=\"#ffffff\" stroke-width=\"3\" stroke-linejoin=\"round\" paint-order=\"stroke\"";
        let size = self.layout.look.label;
        let font = format!("font-family=\"{MONO}\" font-size=\"{size}\" text-anchor=\"middle\"");
        svg.group(&format!("class=\"labels\" {font} fill=\"{INK}\" {rim}"), |svg| {
            for event in 0..self.story.events.len() {
                self.label(svg, event);
            }
        });
        let size = if self.layout.look.tells_entries { 14 } else { 12 };
        let bold = format!("font-size=\"{size}\" font-weight=\"bold\" fill=\"{INK}\"");
        svg.group(&format!("class=\"names\" font-family=\"{SANS}\" {bold}"), |svg| {
            for process in words::processes(&self.story.bench) {
                let y = self.frame.y(process) + 4.5;
                let name = process.to_string();
                svg.text(self.layout.left - 8.0, y, "text-anchor=\"end\"", &name);
                // Again at the right, for wide pictures.
                svg.text(self.layout.end + 6.0, y, "", &name);
            }
        });
    }

    fn label(&self, svg: &mut Svg, event: usize) {
        let (story, kind) = (self.story, &self.story.events[event].kind);
        let (x, y) = self.point(event);
        match kind {
            Kind::Start(value) => svg.text(x, y - 9.0, "", &words::value(*value, story.has_diet())),
            Kind::Close { held, .. } if self.layout.look.tells_entries => {
                let entries = words::entries(held, story.n(), story.has_diet()).join(" ");
                svg.text(x, y - 11.0, "", &entries);
            }
            _ => {}
        }
        if let Some(number) = Mark::number(kind) {
            svg.text(x, y + 5.0 + self.layout.look.label, "", &number.to_string());
        }
    }
}

/// Each crash by its place in the story, with each process to which the crashed one still owed its message.
pub fn owed_at_crashes(story: &Story) -> Vec<(usize, u8)> {
    let owed = |(event, told): (usize, &Event)| match told.kind {
        Kind::Crash(outbox) => words::processes(&story.bench)
            .filter(|p| outbox >> (p - 1) & 1 == 1)
            .map(|to| (event, to))
            .collect(),
        _ => Vec::new(),
    };
    story.events.iter().enumerate().flat_map(owed).collect()
}

/// How what was never sent is drawn.
pub fn unsent_style() -> String {
    format!("fill=\"none\" stroke=\"{CRASHED}\" stroke-width=\"1.3\" stroke-dasharray=\"1.5 2.5\"")
}

/// The rounds of which there are messages, the decisions last.
pub fn rounds(story: &Story) -> Vec<u8> {
    let mut rounds: Vec<u8> = story.messages.iter().map(|message| message.round).collect();
    rounds.sort_by_key(|&round| if round == 0 { u8::MAX } else { round });
    rounds.dedup();
    rounds
}

/// The arrow head of the messages of a round. Rounds of one colour have one.
pub fn head(round: u8) -> usize {
    match round {
        0 => 0,
        _ => (round as usize - 1) % super::marks::HUE_COUNT + 1,
    }
}
