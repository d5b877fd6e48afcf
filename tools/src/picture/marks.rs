//! The marks of events, and the colours. The legend draws the same marks.

use super::story::Kind;
use super::svg::Svg;

pub const INK: &str = "#333333";
pub const FAINT: &str = "#8a8a8a";
pub const DECIDED: &str = "#00806a";
pub const CRASHED: &str = "#cc3311";

/// Four hues that stay apart for who does not see all colours; a later round takes the next one in turn.
const HUES: [&str; 4] = ["#0077bb", "#ee7733", "#aa3377", "#33a5dd"];

/// Rounds of the same hue.
pub const HUE_COUNT: usize = HUES.len();

/// The colour of the messages of a round; 0 is the decision.
pub fn hue(round: u8) -> &'static str {
    match round {
        0 => DECIDED,
        _ => HUES[(round as usize - 1) % HUE_COUNT],
    }
}

#[derive(Clone, Copy, PartialEq, Eq)]
pub enum Mark {
    Start,
    Close,
    Decide,
    Learn,
    Crash,
    Suspect,
    Refused,
}

impl Mark {
    pub const ALL: [Mark; 7] =
        [Mark::Start, Mark::Close, Mark::Decide, Mark::Learn, Mark::Crash, Mark::Suspect, Mark::Refused];

    /// The mark of an event; messages have arrows instead.
    pub fn of(kind: &Kind) -> Option<Mark> {
        match kind {
            Kind::Send | Kind::Arrive => None,
            Kind::Start(_) => Some(Mark::Start),
            Kind::Close { decides: false, .. } => Some(Mark::Close),
            Kind::Close { decides: true, .. } => Some(Mark::Decide),
            Kind::Learn => Some(Mark::Learn),
            Kind::Crash(_) => Some(Mark::Crash),
            Kind::Suspect(_) => Some(Mark::Suspect),
            Kind::Refused(_) => Some(Mark::Refused),
        }
    }

    /// What the legend says of it.
    pub fn words(self) -> &'static str {
        match self {
            Mark::Start => "starts, with this value",
            Mark::Close => "closes its round",
            Mark::Decide => "closes and decides",
            Mark::Learn => "decides by a decision that arrives",
            Mark::Crash => "crashes",
            Mark::Suspect => "suspects the process of this number",
            Mark::Refused => "record refused, by this number",
        }
    }

    /// The attributes of a group of such marks.
    pub fn style(self) -> String {
        let (fill, stroke, width) = match self {
            Mark::Start => ("none", INK, 2.0),
            Mark::Close => (INK, "#ffffff", 0.8),
            Mark::Decide | Mark::Learn => (DECIDED, DECIDED, 1.4),
            Mark::Crash => ("none", CRASHED, 2.2),
            Mark::Suspect => ("#ffffff", CRASHED, 1.3),
            Mark::Refused => ("#ffffff", "#666666", 1.2),
        };
        format!("fill=\"{fill}\" stroke=\"{stroke}\" stroke-width=\"{width}\"")
    }

    /// The number that stands at a mark below its line.
    pub fn number(kind: &Kind) -> Option<u32> {
        match kind {
            Kind::Suspect(other) => Some(u32::from(*other)),
            Kind::Refused(refusal) => Some(refusal.number()),
            _ => None,
        }
    }

    /// The shape. In the picture its main part has a class; in the legend it has none.
    pub fn shape(self, svg: &mut Svg, class: bool, x: f64, y: f64) {
        let class = |name: &'static str| if class { name } else { "" };
        let diamond = |r: f64| [(x - r, y), (x, y - r), (x + r, y), (x, y + r), (x - r, y)];
        match self {
            Mark::Start => svg.path(class("start"), &[(x, y - 6.0), (x, y + 6.0)], ""),
            Mark::Close => svg.circle(class("dot"), x, y, 3.5, ""),
            Mark::Decide => {
                svg.circle(class("ring"), x, y, 7.0, "fill=\"#ffffff\"");
                svg.circle(class("dot"), x, y, 4.0, "");
            }
            Mark::Learn => {
                svg.path("", &diamond(8.5), "fill=\"#ffffff\"");
                svg.path(class("learned"), &diamond(4.5), "");
            }
            Mark::Crash => cross(svg, class("cross"), x, y, 5.0),
            Mark::Suspect => {
                let corners = [(x - 4.5, y + 4.0), (x, y - 4.5), (x + 4.5, y + 4.0), (x - 4.5, y + 4.0)];
                svg.path(class("suspicion"), &corners, "");
            }
            Mark::Refused => svg.rectangle(class("refused"), (x - 3.5, y - 3.5), (7.0, 7.0), ""),
        }
    }
}

fn cross(svg: &mut Svg, class: &str, x: f64, y: f64, r: f64) {
    let (left, right) = (x - r, x + r);
    // In one stroke through the middle, so that a cross is one element.
    let points = [(left, y - r), (right, y + r), (x, y), (left, y + r), (right, y - r)];
    svg.path(class, &points, "");
}
