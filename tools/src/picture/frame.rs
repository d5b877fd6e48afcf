//! What stands around the diagram: title, caption, numbers of records, what each process then holds, the legend.

use super::layout::Layout;
use super::marks::{hue, Mark, DECIDED, FAINT, HUE_COUNT, INK};
use super::paint::{head, owed_at_crashes, rounds, unsent_style};
use super::story::Story;
use super::svg::{mono_width, number, sans_width, wrap, Svg, MONO, SANS};
use super::words;

const MARGIN: f64 = 16.0;
/// From the end of the lines to the table, with the numbers of the processes between.
const NUMBERS: f64 = 28.0;
const NARROWEST: f64 = 520.0;
const TITLE: f64 = 16.0;
const CAPTION: f64 = 12.0;
const SMALL: f64 = 11.0;
const ENTRY: f64 = 10.5;

/// Tints of equal decisions. A second one would be a different decision.
const TINTS: [&str; 3] = ["#dcf1ea", "#fbe3d6", "#ecdcf0"];

/// What one process holds at the end.
struct Row {
    status: String,
    /// In two lines where there are many processes.
    entries: Vec<String>,
    group: Option<usize>,
}

pub struct Frame {
    pub width: f64,
    pub height: f64,
    title: Vec<String>,
    caption: Vec<String>,
    rows: Vec<Row>,
    legend: Vec<Vec<Item>>,
    /// Where the record numbers stand.
    strip: f64,
    /// Where the lines of the processes begin.
    top: f64,
    pitch: f64,
}

impl Frame {
    pub fn of(story: &Story, layout: &Layout, title: Option<&str>) -> Frame {
        let rows = rows(story);
        let width = (layout.end + NUMBERS + table_width(&rows) + MARGIN).max(NARROWEST).ceil();
        let inside = width - 2.0 * MARGIN;
        let (size, caption) = (words::size(&story.bench), words::caption(story));
        let (title, caption) = match title {
            Some(title) => (title.into(), format!("{size}. {caption}")),
            None => (size, caption),
        };
        let title = wrap(&title, (inside / sans_width(1, TITLE)) as usize);
        let caption = wrap(&caption, (inside / sans_width(1, CAPTION)) as usize);
        let legend = flow(items(story), inside);
        let strip = 30.0 + title.len() as f64 * 21.0 + caption.len() as f64 * 16.0;
        // Records that are about no process stand above the lines.
        let above = if story.events.iter().any(|event| event.line == 0) { 30.0 } else { 16.0 };
        let (top, pitch) = (strip + above, layout.look.pitch);
        let below = 20.0 + legend.len() as f64 * 20.0 + 8.0;
        let height = (top + f64::from(story.n()) * pitch + below).ceil();
        Frame { width, height, title, caption, rows, legend, strip, top, pitch }
    }

    /// The middle of a process's line, from 1. Line 0 is above them.
    pub fn y(&self, line: u8) -> f64 {
        match line {
            0 => self.strip + 10.0,
            _ => self.top + (f64::from(line) - 0.45) * self.pitch,
        }
    }

    pub fn paint(&self, svg: &mut Svg, layout: &Layout) {
        self.head(svg);
        self.record_numbers(svg, layout);
        self.table(svg, layout.end + NUMBERS);
        self.legend(svg);
    }

    fn head(&self, svg: &mut Svg) {
        let mut y = 10.0;
        svg.group(&format!("class=\"head\" font-family=\"{SANS}\" fill=\"{INK}\""), |svg| {
            for line in &self.title {
                y += 21.0;
                svg.text(MARGIN, y, &format!("font-size=\"{TITLE}\" font-weight=\"bold\""), line);
            }
            for line in &self.caption {
                y += 16.0;
                svg.text(MARGIN, y, &format!("font-size=\"{CAPTION}\" fill=\"#555555\""), line);
            }
        });
    }

    /// The first record of each column, where there is room for it.
    fn record_numbers(&self, svg: &mut Svg, layout: &Layout) {
        let style = format!("font-family=\"{SANS}\" font-size=\"9\" fill=\"{FAINT}\" text-anchor=\"middle\"");
        svg.group(&format!("class=\"records\" {style}"), |svg| {
            let mut free = 0.0;
            for &(x, record) in &layout.columns {
                let words = record.to_string();
                let half = sans_width(words.len(), 9.0) / 2.0 + 3.0;
                if x - half >= free {
                    svg.text(x, self.strip, "", &words);
                    free = x + half;
                }
            }
        });
    }

    fn table(&self, svg: &mut Svg, x: f64) {
        let style = format!("font-family=\"{SANS}\" font-size=\"9\" fill=\"{FAINT}\"");
        svg.text(x + 4.0, self.strip, &style, "at the end each process holds");
        svg.group(&format!("class=\"table\" font-size=\"{SMALL}\" fill=\"{INK}\""), |svg| {
            for (i, row) in self.rows.iter().enumerate() {
                self.row(svg, x, i, row);
            }
        });
    }

    fn row(&self, svg: &mut Svg, x: f64, i: usize, row: &Row) {
        let lines = row.entries.len() as f64;
        // The middle of the text is the middle of the line.
        let top = self.y(i as u8 + 1) - (12.0 + lines * 12.0) / 2.0;
        if let Some(group) = row.group {
            let tint = format!("fill=\"{}\" rx=\"2\"", TINTS[group.min(TINTS.len() - 1)]);
            let width = row.entries.iter().map(|line| entry_width(line)).fold(0.0, f64::max) + 8.0;
            svg.rectangle("decision", (x, top + 12.5), (width, lines * 12.0 + 1.5), &tint);
        }
        let colour = if row.group.is_some() { DECIDED } else { "#555555" };
        svg.text(x + 4.0, top + 9.5, &format!("font-family=\"{SANS}\" fill=\"{colour}\""), &row.status);
        for (k, line) in row.entries.iter().enumerate() {
            let style = format!("font-family=\"{MONO}\" font-size=\"{ENTRY}\"");
            svg.text(x + 4.0, top + 22.0 + k as f64 * 12.0, &style, line);
        }
    }

    fn legend(&self, svg: &mut Svg) {
        let top = self.y(self.rows.len() as u8) + self.pitch * 0.45 + 22.0;
        let style = format!("font-family=\"{SANS}\" font-size=\"{SMALL}\" fill=\"#555555\"");
        svg.group(&format!("class=\"legend\" {style}"), |svg| {
            for (i, line) in self.legend.iter().enumerate() {
                let mut x = MARGIN;
                for item in line {
                    item.paint(svg, x, top + i as f64 * 20.0);
                    x += item.width();
                }
            }
        });
    }
}

fn entry_width(line: &str) -> f64 {
    mono_width(line.chars().count(), ENTRY)
}

fn table_width(rows: &[Row]) -> f64 {
    let width = |row: &Row| {
        let entries = row.entries.iter().map(|line| entry_width(line)).fold(0.0, f64::max);
        entries.max(sans_width(row.status.chars().count(), SMALL)) + 8.0
    };
    rows.iter().map(width).fold(sans_width(29, 9.0), f64::max)
}

/// The entries stand below each other, so that what differs shows.
fn rows(story: &Story) -> Vec<Row> {
    let (bench, n) = (&story.bench, story.n());
    let all: Vec<Vec<String>> = words::processes(bench)
        .map(|process| words::entries(&words::held(bench, process), n, story.has_diet()))
        .collect();
    let widest = |i: usize| all.iter().map(|entries| entries[i].len()).max().unwrap_or(0);
    let widths: Vec<usize> = (0..n as usize).map(widest).collect();
    let per_line = if n > 8 { n.div_ceil(2) as usize } else { n.max(1) as usize };
    let groups = words::groups(bench);
    let row = |(i, entries): (usize, &Vec<String>)| Row {
        status: words::status(bench, i as u8 + 1),
        entries: entries.chunks(per_line).zip(widths.chunks(per_line)).map(padded).collect(),
        group: groups[i],
    };
    all.iter().enumerate().map(row).collect()
}

/// Entries to the right of their places. Spaces that are not joined into one keep them there.
fn padded((entries, widths): (&[String], &[usize])) -> String {
    let place = |(entry, &width): (&String, &usize)| {
        format!("{}{entry}", "\u{a0}".repeat(width.saturating_sub(entry.len())))
    };
    entries.iter().zip(widths).map(place).collect::<Vec<_>>().join("\u{a0}")
}

/// One thing that the legend explains.
enum Item {
    Mark(Mark),
    /// Messages of these rounds, which have one colour.
    Arrow(Vec<u8>),
    Stub,
    Unsent,
}

impl Item {
    fn words(&self) -> String {
        match self {
            Item::Mark(mark) => mark.words().into(),
            Item::Stub => "message that has not arrived".into(),
            Item::Unsent => "owed at the crash, never sent".into(),
            Item::Arrow(rounds) => match rounds[..] {
                [0] => "decision".into(),
                [round] => format!("estimate of round {round}"),
                _ => {
                    let rounds: Vec<String> = rounds.iter().map(u8::to_string).collect();
                    format!("estimate of round {}", rounds.join(", "))
                }
            },
        }
    }

    fn icon(&self) -> f64 {
        match self {
            Item::Mark(Mark::Decide | Mark::Learn) => 24.0,
            Item::Mark(_) => 19.0,
            _ => 32.0,
        }
    }

    fn width(&self) -> f64 {
        self.icon() + sans_width(self.words().chars().count(), SMALL) + 12.0
    }

    fn paint(&self, svg: &mut Svg, x: f64, y: f64) {
        match self {
            Item::Mark(mark) => {
                let middle = x + self.icon() / 2.0 - 1.0;
                svg.group(&mark.style(), |svg| mark.shape(svg, false, middle, y));
            }
            Item::Arrow(rounds) => {
                let round = rounds.first().copied().unwrap_or(0);
                let dashes = if round == 0 { " stroke-dasharray=\"5 2.5\"" } else { "" };
                let colour = format!("stroke=\"{}\" stroke-opacity=\"0.8\"{dashes}", hue(round));
                let style = format!("fill=\"none\" {colour} marker-end=\"url(#head-{})\"", head(round));
                svg.path("", &[(x, y), (x + 27.0, y)], &style);
            }
            Item::Stub => {
                svg.path("", &[(x + 4.0, y), (x + 19.0, y)], &format!("stroke=\"{}\"", hue(1)));
                svg.circle("", x + 21.0, y, 2.0, &format!("fill=\"none\" stroke=\"{}\"", hue(1)));
            }
            Item::Unsent => svg.path("", &[(x + 4.0, y), (x + 24.0, y)], &unsent_style()),
        }
        svg.text(x + self.icon(), y + 4.0, "", &self.words());
    }
}

/// Only what occurs.
fn items(story: &Story) -> Vec<Item> {
    let occurs = |mark: &Mark| story.events.iter().any(|event| Mark::of(&event.kind) == Some(*mark));
    let mut items: Vec<Item> = Mark::ALL.into_iter().filter(occurs).map(Item::Mark).collect();
    let rounds = rounds(story);
    for colour in (1..=HUE_COUNT).chain([0]) {
        let alike: Vec<u8> = rounds.iter().copied().filter(|&round| head(round) == colour).collect();
        if !alike.is_empty() {
            items.push(Item::Arrow(alike));
        }
    }
    if story.messages.iter().any(|message| message.arrived.is_none()) {
        items.push(Item::Stub);
    }
    if !owed_at_crashes(story).is_empty() {
        items.push(Item::Unsent);
    }
    items
}

/// The items in lines of at most this width.
fn flow(items: Vec<Item>, width: f64) -> Vec<Vec<Item>> {
    let mut lines: Vec<Vec<Item>> = Vec::new();
    let mut free = 0.0;
    for item in items {
        let needed = item.width();
        match lines.last_mut() {
            Some(line) if needed <= free => line.push(item),
            _ => {
                lines.push(vec![item]);
                free = width;
            }
        }
        free -= needed;
    }
    lines
}

/// The arrow heads of the colours that occur.
pub fn heads(svg: &mut Svg, story: &Story) {
    let mut seen = Vec::new();
    svg.put("<defs>");
    for round in rounds(story) {
        let id = head(round);
        if !seen.contains(&id) {
            seen.push(id);
            let place = "viewBox=\"0 0 6 5\" refX=\"6\" refY=\"2.5\" markerWidth=\"6\" markerHeight=\"5\"";
            let turn = "markerUnits=\"userSpaceOnUse\" orient=\"auto\"";
            svg.put(&format!("<marker id=\"head-{id}\" {place} {turn}>"));
            let fill = format!("fill=\"{}\" fill-opacity=\"0.9\"", hue(round));
            svg.put(&format!("<path d=\"M0 0.4L6 2.5L0 4.6z\" {fill}/>"));
            svg.put("</marker>");
        }
    }
    svg.put("</defs>");
}

/// The first element, with the size of the whole.
pub fn root(frame: &Frame) -> String {
    let (width, height) = (number(frame.width), number(frame.height));
    let size = format!("width=\"{width}\" height=\"{height}\" viewBox=\"0 0 {width} {height}\"");
    let names = "role=\"img\" aria-labelledby=\"picture-title picture-desc\"";
    format!("<svg xmlns=\"http://www.w3.org/2000/svg\" {size} {names}>")
}
