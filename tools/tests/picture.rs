//! The picture: well-formed, deterministic, and with a mark for each accepted record, none too many.

use gerzulan::{Bench, Counters};
use reference::gen::{self, Rng};
use std::collections::{BTreeMap, VecDeque};
use std::path::{Path, PathBuf};
use std::process::{Command, Output};
use tools::input::{self, Source};
use tools::picture::draw;

/// An element with its attributes, and the text right after its tag.
struct Element {
    name: String,
    attributes: BTreeMap<String, String>,
    text: String,
}

impl Element {
    fn get(&self, name: &str) -> &str {
        self.attributes.get(name).map_or("", String::as_str)
    }

    fn number(&self, name: &str) -> f64 {
        self.get(name).parse().unwrap_or_else(|_| panic!("{name} of {} is no number", self.name))
    }

    /// The points of a path.
    fn points(&self) -> Vec<(f64, f64)> {
        let part = |part: &str| {
            let (x, y) = part.split_once(' ').expect("two numbers");
            (x.parse().expect("a number"), y.parse().expect("a number"))
        };
        self.get("d").split(['M', 'L']).skip(1).map(part).collect()
    }
}

/// The elements of a well-formed document in order; panics where it is not one.
fn elements(svg: &str) -> Vec<Element> {
    let body = svg.strip_prefix("<?xml version=\"1.0\" encoding=\"UTF-8\"?>\n").expect("a declaration");
    let (mut found, mut open): (Vec<Element>, Vec<String>) = (Vec::new(), Vec::new());
    let mut parts = body.split('<');
    assert_eq!(parts.next(), Some(""), "text before the first element");
    for part in parts {
        assert!(found.is_empty() || !open.is_empty(), "a second root");
        let (tag, text) = part.split_once('>').expect("an end of the tag");
        if let Some(name) = tag.strip_prefix('/') {
            assert_eq!(open.pop().as_deref(), Some(name));
        } else {
            let (inner, empty) = tag.strip_suffix('/').map_or((tag, false), |inner| (inner, true));
            let element = element(inner, text);
            if !empty {
                open.push(element.name.clone());
            }
            found.push(element);
        }
        check_text(text);
    }
    assert!(open.is_empty(), "not closed: {open:?}");
    found
}

fn element(tag: &str, text: &str) -> Element {
    let (name, mut rest) = tag.split_once(' ').unwrap_or((tag, ""));
    assert!(!name.is_empty() && name.bytes().all(|c| c.is_ascii_alphabetic()), "{name}");
    let mut attributes = BTreeMap::new();
    while !rest.is_empty() {
        let (name, after) = rest.split_once("=\"").expect("an attribute");
        let (value, after) = after.split_once('"').expect("a quoted value");
        assert!(name.trim_start().bytes().all(|c| c.is_ascii_alphabetic() || c == b'-'), "{name}");
        check_text(value);
        assert_eq!(attributes.insert(name.trim_start().into(), value.into()), None, "{name} twice");
        rest = after;
    }
    Element { name: name.into(), attributes, text: text.into() }
}

/// No mark-up characters but in the five entities, and no control characters but line ends.
fn check_text(text: &str) {
    for part in text.split('&').skip(1) {
        let known = ["amp;", "lt;", "gt;", "quot;", "#39;"];
        assert!(known.iter().any(|entity| part.starts_with(entity)), "&{part}");
    }
    assert!(!text.contains(|c: char| c == '>' || (c.is_control() && c != '\n')), "{text:?}");
}

fn with_class<'a>(elements: &'a [Element], class: &str) -> Vec<&'a Element> {
    elements.iter().filter(|element| element.get("class") == class).collect()
}

/// What the library did with a schedule.
struct Expected {
    /// By class of what is to be drawn.
    counts: BTreeMap<&'static str, usize>,
    /// The marks that stand on the line of a process, in order: class, process, and whom it suspects.
    marks: Vec<(&'static str, u8, u8)>,
    bench: Bench,
    refused: usize,
}

fn expected(bytes: &[u8]) -> Expected {
    let bench = Bench::open(bytes[1], bytes[2]).expect("a good opening");
    let (counts, marks) = Default::default();
    let mut expected = Expected { counts, marks, bench, refused: 0 };
    bytes[8..].chunks(8).for_each(|record| expected.step(record));
    let Expected { counts, marks, bench, refused } = &mut expected;
    counts.insert("stub", bench.in_transit().expect("a sound bench").len());
    // What a process owes when it crashes it owes for good.
    let crashed = (1..=bench.n).filter(|&process| bench.has_crashed(process));
    let owed = crashed.filter_map(|process| Some(bench.process(process)?.outbox.count_ones() as usize));
    counts.insert("unsent", owed.sum());
    counts.insert("refused", if *refused > 60 { 0 } else { *refused });
    counts.insert("decision", decided(bench));
    marks.retain(|mark| mark.0 != "refused" || *refused <= 60);
    expected
}

fn decided(bench: &Bench) -> usize {
    bench.processes.iter().filter(|process| process.decided != 0).count()
}

impl Expected {
    fn step(&mut self, record: &[u8]) {
        let before = decided(&self.bench);
        let accepted = self.bench.step(record, &mut Counters::default()).is_ok();
        self.refused += usize::from(!accepted);
        let classes = if accepted { classes(record[0], decided(&self.bench) > before) } else { &["refused"] };
        for &class in classes {
            *self.counts.entry(class).or_insert(0) += 1;
        }
        // A short record may be about nobody.
        let field = |place: usize| record.get(place).copied().unwrap_or(0);
        let process = if field(0) == 3 { field(2) } else { field(1) };
        let about = (1..=6).contains(&field(0)) && (1..=self.bench.n).contains(&process);
        if let Some(class) = classes.iter().find(|class| **class != "arrow").filter(|_| about) {
            self.marks.push((class, process, field(2)));
        }
    }
}

/// What is drawn for an accepted record of this kind. A send shows as the arrow of its arrival, or as a stub.
fn classes(kind: u8, decides: bool) -> &'static [&'static str] {
    match (kind, decides) {
        (1, _) => &["start"],
        (3, false) => &["arrow"],
        (3, true) => &["arrow", "learned"],
        (4, false) => &["dot"],
        (4, true) => &["dot", "ring"],
        (5, _) => &["cross"],
        (6, _) => &["suspicion"],
        _ => &[],
    }
}

const CLASSES: [&str; 11] = [
    "start",
    "arrow",
    "stub",
    "unsent",
    "dot",
    "ring",
    "learned",
    "cross",
    "suspicion",
    "refused",
    "decision",
];

/// Everything that is true of every picture; gives its elements.
fn check(bytes: &[u8]) -> Vec<Element> {
    let svg = draw(bytes, None).expect("a good opening");
    assert_eq!(draw(bytes, None), Ok(svg.clone()), "not deterministic");
    let elements = elements(&svg);
    let expected = expected(bytes);
    for class in CLASSES {
        let drawn = with_class(&elements, class).len();
        assert_eq!(drawn, expected.counts.get(class).copied().unwrap_or(0), "{class}");
    }
    check_numbers(&elements);
    check_places(&elements);
    check_crashes(&elements);
    check_order(&elements, &expected);
    check_labels(&elements);
    check_table(&elements, &expected.bench);
    let together = with_class(&elements, "decision").len() > 1;
    assert_eq!(svg.contains("on the same entries"), together, "agreement is proved");
    if expected.refused > 0 {
        assert!(svg.contains(&format!("{} refused", expected.refused)) || svg.contains("1 record, refused"));
    }
    elements
}

/// One decimal at most, in every attribute.
fn check_numbers(elements: &[Element]) {
    for value in elements.iter().flat_map(|element| element.attributes.values()) {
        assert!(!value.contains("NaN") && !value.contains("inf"), "{value}");
        let decimals =
            value.split('.').skip(1).map(|rest| rest.bytes().take_while(u8::is_ascii_digit).count());
        // The name of the SVG language has points in it too.
        assert!(value.starts_with("http://www.w3.org/") || decimals.max().unwrap_or(0) <= 1, "{value}");
    }
}

/// Nothing is outside of the picture.
fn check_places(elements: &[Element]) {
    let (width, height) = (elements[0].number("width"), elements[0].number("height"));
    assert_eq!(elements[0].get("viewBox"), format!("0 0 {width} {height}"));
    let inside =
        |x: f64, y: f64| assert!((0.0..=width).contains(&x) && (0.0..=height).contains(&y), "{x} {y}");
    let drawn = elements.iter().skip_while(|element| element.get("class") != "paper");
    for element in drawn {
        match element.name.as_str() {
            "path" => element.points().into_iter().for_each(|(x, y)| inside(x, y)),
            "circle" => inside(element.number("cx"), element.number("cy")),
            "text" => inside(element.number("x"), element.number("y")),
            "rect" => {
                let (x, y) = (element.number("x"), element.number("y"));
                inside(x, y);
                inside(x + element.number("width"), y + element.number("height"));
            }
            _ => {}
        }
    }
}

/// A message is sent before it arrives, and nothing is sent from a line after its cross, or arrives there.
fn check_crashes(elements: &[Element]) {
    let middle = |cross: &&Element| cross.points()[2];
    let crosses: Vec<(f64, f64)> = with_class(elements, "cross").iter().map(middle).collect();
    let alive = |(x, y): (f64, f64)| crosses.iter().all(|cross| cross.1 != y || x < cross.0);
    for arrow in with_class(elements, "arrow") {
        let [sent, arrived] = arrow.points()[..] else { panic!("an arrow is straight") };
        assert!(sent.0 < arrived.0 && alive(sent) && alive(arrived), "{}", arrow.get("d"));
    }
    for stub in with_class(elements, "stub") {
        assert!(alive(stub.points()[0]), "{}", stub.get("d"));
    }
}

/// The middle of a mark.
fn middle(class: &str, mark: &Element) -> (f64, f64) {
    let points = mark.points();
    match class {
        "start" => (points[0].0, (points[0].1 + points[1].1) / 2.0),
        "learned" => (points[1].0, points[0].1),
        "cross" => points[2],
        "suspicion" => (points[1].0, points[1].1 + 4.5),
        "refused" => (mark.number("x") + 3.5, mark.number("y") + 3.5),
        _ => (mark.number("cx"), mark.number("cy")),
    }
}

fn tenths(y: f64) -> i64 {
    (y * 10.0).round() as i64
}

/// The marks of a process stand on its line in the order of the records, and a suspicion after the crash.
fn check_order(elements: &[Element], expected: &Expected) {
    let place = elements.iter().position(|element| element.get("class") == "names").expect("names");
    let names = &elements[place + 1..][..2 * expected.bench.n as usize];
    let lines: BTreeMap<&str, i64> =
        names.iter().map(|name| (name.text.trim(), tenths(name.number("y") - 4.5))).collect();
    let mut places: BTreeMap<(&str, i64), VecDeque<f64>> = BTreeMap::new();
    for class in ["start", "dot", "learned", "cross", "suspicion", "refused"] {
        for (x, y) in with_class(elements, class).into_iter().map(|mark| middle(class, mark)) {
            places.entry((class, tenths(y))).or_default().push_back(x);
        }
    }
    let (mut last, mut crashes) = (BTreeMap::new(), BTreeMap::new());
    for &(class, process, other) in &expected.marks {
        let queue = places.get_mut(&(class, lines[process.to_string().as_str()]));
        let x = queue.and_then(VecDeque::pop_front).unwrap_or_else(|| panic!("no {class} at {process}"));
        assert!(last.insert(process, x).is_none_or(|before| before < x), "{class} of {process}");
        match class {
            "cross" => assert_eq!(crashes.insert(process, x), None),
            "suspicion" => assert!(crashes[&other] < x, "{process} suspects {other} too soon"),
            _ => {}
        }
    }
}

/// No two labels at marks of one line overlap.
fn check_labels(elements: &[Element]) {
    let place =
        |class: &str| elements.iter().position(|element| element.get("class") == class).expect("a group");
    let group = &elements[place("labels")..place("names")];
    let size = group[0].number("font-size");
    let half = |label: &Element| label.text.trim().chars().count() as f64 * size * 0.3;
    let labels: Vec<(f64, f64, f64)> =
        group[1..].iter().map(|label| (label.number("x"), label.number("y"), half(label))).collect();
    for (i, one) in labels.iter().enumerate() {
        for other in &labels[..i] {
            let apart = (one.1 - other.1).abs() >= size || (one.0 - other.0).abs() >= one.2 + other.2;
            assert!(apart, "{one:?} {other:?}");
        }
    }
}

/// What the table says that each process holds is what it holds.
fn check_table(elements: &[Element], bench: &Bench) {
    let place = elements.iter().position(|element| element.get("class") == "table").expect("a table");
    let table = elements[place..].iter().take_while(|element| element.get("class") != "legend");
    let texts: Vec<&str> =
        table.filter(|e| e.name == "text").map(|e| e.text.trim_end_matches('\n')).collect();
    let status = ["crashed", "decided", "in round", "not"];
    let mut lines = texts.split(|line| status.iter().any(|words| line.starts_with(words)));
    assert_eq!(lines.next(), Some(&[][..]), "a status comes first");
    let lines: Vec<&[&str]> = lines.collect();
    // Entries stand below each other.
    let widths = |lines: &[&str]| lines.iter().map(|line| line.chars().count()).collect::<Vec<_>>();
    assert!(lines.iter().all(|line| widths(line) == widths(lines[0])), "{lines:?}");
    let held: Vec<String> = lines.into_iter().map(|lines| lines.join("\u{a0}")).collect();
    assert_eq!(held.len(), bench.n as usize);
    let diet = (1..=bench.n).any(|p| bench.process(p).unwrap().estimate.values.iter().any(|v| v.diet() != 0));
    for (process, held) in (1..=bench.n).zip(held) {
        let process = bench.process(process).expect("a process");
        let entries: Vec<String> =
            (1..=bench.n).map(|other| entry(process.estimate.entry(other), diet)).collect();
        assert_eq!(held.split('\u{a0}').filter(|entry| !entry.is_empty()).collect::<Vec<_>>(), entries);
    }
}

fn entry(value: Option<gerzulan::Value>, diet: bool) -> String {
    match value {
        None => "-".into(),
        Some(value) if diet => value.to_string(),
        Some(value) => value.portions().to_string(),
    }
}

fn opened(n: u8, t: u8, records: &[u8]) -> Vec<u8> {
    [&[0, n, t, 0, 0, 0, 0, 0], records].concat()
}

#[test]
fn random_schedules() {
    let mut met: BTreeMap<&str, usize> = BTreeMap::new();
    let sizes =
        [(1, 0), (2, 0), (2, 1), (3, 1), (3, 2), (4, 3), (5, 2), (7, 6), (8, 3), (9, 8), (12, 11), (16, 15)];
    for (n, t) in sizes {
        for seed in 0..12 {
            let elements = check(&opened(n, t, &gen::schedule(n, t, seed, 0)));
            for class in CLASSES {
                *met.entry(class).or_default() += with_class(&elements, class).len();
            }
        }
    }
    assert_eq!(met.remove("refused"), Some(0));
    assert!(met.values().all(|&count| count > 20), "{met:?}");
}

#[test]
fn refused_records() {
    let (mut drawn, mut counted) = (0, 0);
    for (n, t) in [(1, 0), (3, 1), (6, 5), (12, 3)] {
        for seed in 0..20 {
            for noise in [2, 30] {
                let bytes = opened(n, t, &gen::schedule(n, t, seed, noise));
                let refused = expected(&bytes).refused;
                check(&bytes);
                drawn += usize::from((1..=60).contains(&refused));
                counted += usize::from(refused > 60);
            }
        }
    }
    assert!(drawn > 5 && counted > 5, "{drawn} {counted}");
}

/// The square is at the process that was to act, with the refusal's number below; above all lines where there is none.
#[test]
fn a_refusal_and_its_place() {
    let records = [[3, 1, 2, 1, 0, 0, 0, 0], [7, 1, 0, 0, 0, 0, 0, 0], [4, 9, 0, 0, 0, 0, 0, 0]];
    let bytes = opened(3, 1, &records.concat());
    let elements = check(&bytes);
    assert_eq!(expected(&bytes).marks, [("refused", 2, 2)]);
    let squares = with_class(&elements, "refused");
    let places: Vec<(f64, f64)> = squares.iter().map(|square| middle("refused", square)).collect();
    let line = with_class(&elements, "line")[0].points()[0].1;
    assert!(places[0].1 > line && places[1].1 < line && places[2].1 < line, "{places:?}");
    let below = |(x, y): &(f64, f64)| {
        let near = |e: &&Element| {
            e.name == "text" && e.number("x") == *x && (5.0..25.0).contains(&(e.number("y") - y))
        };
        elements.iter().find(near).expect("a number").text.trim().to_string()
    };
    assert_eq!(places.iter().map(below).collect::<Vec<_>>(), ["7", "4", "5"]);
}

#[test]
fn any_bytes() {
    let mut rng = Rng::new(4);
    for round in 0..200 {
        let length = rng.below(900);
        let bytes: Vec<u8> = (0..length).map(|_| rng.pick(&[0, 1, 1, 2, 3, 4, 5, 6, 255])).collect();
        let n = (round % 16) as u8 + 1;
        check(&opened(n, rng.below(n as usize) as u8, &bytes));
        // Without a good opening there is no picture, but a message.
        let formed = bytes.len() >= 8 && bytes[0] == 0 && bytes[3..8] == [0; 5];
        assert_eq!(draw(&bytes, None).is_ok(), formed && Bench::open(bytes[1], bytes[2]).is_ok());
    }
}

#[test]
fn a_million_refused_bytes() {
    let svg = draw(&opened(12, 3, &vec![7; 1_000_000]), None).expect("a picture");
    assert!(svg.contains("125000 records: 0 accepted, 125000 refused, too many to draw"));
    assert!(svg.len() < 20_000);
}

#[test]
fn opening_alone() {
    for (n, t) in gen::sizes() {
        let elements = check(&opened(n, t, &[]));
        let dotted = |line: &&Element| !line.get("stroke-dasharray").is_empty();
        assert_eq!(with_class(&elements, "line").into_iter().filter(dotted).count(), n as usize);
    }
    assert!(draw(&[], None).is_err() && draw(&[0, 17, 0, 0, 0, 0, 0, 0], None).is_err());
}

#[test]
fn a_title_is_escaped() {
    let bytes = opened(2, 1, &[]);
    let title = "a < b & \"c\" > 'd' </title><script>\u{1}\n]]>";
    let svg = draw(&bytes, Some(title)).expect("a picture");
    let elements = elements(&svg);
    assert!(elements.iter().all(|element| element.name != "script"));
    let shown = "a &lt; b &amp; &quot;c&quot; &gt; &#39;d&#39; &lt;/title&gt;&lt;script&gt;\u{fffd} ]]&gt;";
    assert_eq!(elements.iter().find(|element| element.name == "title").expect("a title").text, shown);
    // A blank title is none.
    assert_eq!(draw(&bytes, Some(" \n")), draw(&bytes, None));
}

#[test]
fn a_long_title_is_wrapped() {
    for title in ["words ".repeat(500), "w".repeat(3000), "\u{1f980}".repeat(700)] {
        let svg = draw(&opened(2, 1, &[]), Some(&title)).expect("a picture");
        let elements = elements(&svg);
        check_places(&elements);
        let letters = title.chars().filter(|c| !c.is_whitespace()).count();
        let bold = elements.iter().filter(|element| element.get("font-size") == "16");
        let lines: Vec<usize> = bold.map(|element| element.text.trim().chars().count()).collect();
        assert!(
            lines.iter().all(|&count| count < 100) && lines.iter().sum::<usize>() >= letters,
            "{lines:?}"
        );
    }
}

/// The story that README tells: what 2 and 3 hold at their closes.
#[test]
fn crash_between_sends() {
    let elements = check(&schedule(Source::Text(root("examples/schedules/crash-between-sends.txt"))));
    let (mut marks, mut labels): (Vec<f64>, Vec<(f64, &str)>) = (Vec::new(), Vec::new());
    for element in &elements {
        match (element.name.as_str(), element.get("class")) {
            ("circle", "dot") => marks.push(element.number("cx")),
            ("text", _) if element.text.trim_end().ends_with("25 30") => {
                labels.push((element.number("x"), element.text.trim_end()));
            }
            _ => {}
        }
    }
    // In the order of the records: 3 and 2 in round 1, then 2 and 3 in round 2. Each label is at its dot.
    let labels: Vec<&str> =
        labels.into_iter().filter(|(x, _)| marks.contains(x)).map(|(_, entries)| entries).collect();
    assert_eq!(labels, ["- 25 30", "40 25 30", "40 25 30", "40 25 30"]);
}

#[test]
fn twelve() {
    let bytes = schedule(Source::Text(root("examples/schedules/twelve.txt")));
    let expected = expected(&bytes);
    check(&bytes);
    assert_eq!((expected.refused, expected.bench.n, expected.bench.t), (0, 12, 3));
    let crashed: Vec<u8> = (1..=12).filter(|&process| expected.bench.has_crashed(process)).collect();
    assert_eq!(crashed, [5, 9]);
    // All others have decided, and every decision has arrived.
    assert_eq!(expected.counts["decision"], 10);
    assert!(expected.bench.in_transit().unwrap().iter().all(|message| message.round != 0));
    // 5 has sent to 1 to 4 only.
    let sent_by_5 = bytes[8..].chunks(8).filter(|record| record[..2] == [2, 5]).map(|record| record[2]);
    assert_eq!(sent_by_5.collect::<Vec<_>>(), [1, 2, 3, 4]);
}

/// The pictures of the pages are what the tool makes of their schedules; `make pictures` makes them again.
#[test]
fn pages_are_fresh() {
    let pictures = [
        (
            "crash-between-sends",
            Source::Text(root("examples/schedules/crash-between-sends.txt")),
            Some("A crash between two sends"),
        ),
        (
            "twelve",
            Source::Text(root("examples/schedules/twelve.txt")),
            Some("Twelve processes, two crashes"),
        ),
        ("case-4", Source::Schedule(root("crates/simulate/stdin")), None),
    ];
    let folder = std::fs::read_dir(root("docs/pictures")).expect("a folder");
    assert_eq!(folder.count(), pictures.len(), "a picture that no schedule is named for");
    for (name, source, title) in pictures {
        let page = std::fs::read_to_string(root(&format!("docs/pictures/{name}.svg"))).expect("a picture");
        assert!(
            draw(&schedule(source), title) == Ok(page),
            "docs/pictures/{name}.svg is stale: make pictures"
        );
    }
}

fn root(name: &str) -> String {
    format!("{}/../{name}", env!("CARGO_MANIFEST_DIR"))
}

fn schedule(source: Source) -> Vec<u8> {
    input::read(&source).expect("a schedule")
}

/// A folder of its own for a test, empty.
fn folder(name: &str) -> PathBuf {
    let folder = Path::new(env!("CARGO_TARGET_TMPDIR")).join(name);
    let _ = std::fs::remove_dir_all(&folder);
    std::fs::create_dir_all(&folder).expect("a folder");
    folder
}

fn picture(folder: &Path, arguments: &[&str]) -> Output {
    let mut command = Command::new(env!("CARGO_BIN_EXE_picture"));
    command.args(arguments).current_dir(folder).output().expect("the tool runs")
}

/// Fails with one line that begins with the tool's name, and says this.
fn fails(folder: &Path, arguments: &[&str], says: &str) {
    let output = picture(folder, arguments);
    let message = String::from_utf8(output.stderr).expect("text");
    assert_eq!((output.status.code(), output.stdout.len()), (Some(1), 0), "{arguments:?}: {message}");
    assert!(message.starts_with("picture: ") && message.contains(says), "{message}");
    assert_eq!(message.lines().count(), 1, "{message}");
}

fn names(folder: &Path) -> Vec<String> {
    let entries = std::fs::read_dir(folder).expect("a folder");
    let mut names: Vec<String> =
        entries.map(|entry| entry.expect("an entry").file_name().to_string_lossy().into_owned()).collect();
    names.sort();
    names
}

#[test]
fn the_tool_writes() {
    let folder = folder("picture-writes");
    std::fs::write(folder.join("good.txt"), "open 2 1\nstart 1 40 3\n").unwrap();
    let output = picture(&folder, &["--text", "good.txt", "--out", "-", "--title", "two & one"]);
    assert!(output.status.success());
    let expected = draw(&opened(2, 1, &[1, 1, 0, 0, 40, 0, 3, 0]), Some("two & one")).unwrap();
    assert!(output.stdout == expected.as_bytes());
    for _ in 0..2 {
        let output = picture(&folder, &["--text", "good.txt", "--title", "two & one", "--out", "out.svg"]);
        assert!(output.status.success() && output.stdout.is_empty() && output.stderr.is_empty());
        assert!(std::fs::read(folder.join("out.svg")).unwrap() == expected.as_bytes());
    }
    assert_eq!(names(&folder), ["good.txt", "out.svg"]);
}

#[test]
fn the_tool_fails() {
    let folder = folder("picture-fails");
    std::fs::write(folder.join("good.txt"), "open 2 1\nstart 1 40 3\n").unwrap();
    std::fs::write(folder.join("bad.txt"), "open 2 1\nleave 1\n").unwrap();
    std::fs::write(folder.join("large.txt"), "open 17 1\n").unwrap();
    std::fs::write(folder.join("out.svg"), "as it was").unwrap();
    std::fs::create_dir(folder.join("inner")).unwrap();
    let before = names(&folder);
    fails(&folder, &["--text", "bad.txt", "--out", "out.svg"], "line 2: unknown word `leave`");
    fails(&folder, &["--text", "large.txt", "--out", "out.svg"], "n is not 1 to 16");
    fails(&folder, &["--text", "missing.txt", "--out", "out.svg"], "missing.txt");
    fails(&folder, &["--schedule", "good.txt", "--out", "out.svg"], "good.txt is text, not bytes");
    fails(&folder, &["--text", "good.txt", "--out", "inner"], "inner is not a file");
    fails(&folder, &["--text", "good.txt", "--out", "nowhere/out.svg"], "nowhere/out.svg: ");
    fails(&folder, &["--text", "good.txt", "--out", ""], "no name of a file");
    fails(&folder, &["--text", "good.txt"], "no --out is given; usage: ");
    fails(&folder, &["--out", "out.svg"], "no schedule is given; usage: ");
    fails(&folder, &["--text", "good.txt", "--schedule", "good.txt", "--out", "-"], "one too many");
    fails(&folder, &["--text", "good.txt", "--out"], "--out wants a word after it");
    fails(&folder, &["good.txt"], "unknown argument good.txt");
    assert_eq!(names(&folder), before);
    assert_eq!(std::fs::read_to_string(folder.join("out.svg")).unwrap(), "as it was");
}
