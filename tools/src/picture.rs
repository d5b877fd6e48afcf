//! The space-time diagram of a schedule, as SVG: a line for each process, arrows for messages, crosses for crashes,
//! dots for closes, the decision. The schedule is run through the proved library, and what was accepted is drawn.

mod frame;
mod layout;
mod marks;
mod paint;
mod story;
mod svg;
mod words;

use frame::Frame;
use layout::Layout;
use paint::Canvas;
use story::Story;
use svg::{escape, Svg};

/// The picture of a schedule, its opening record first. The same bytes and title give the same picture. Where no
/// title is given, or a blank one, it says how many processes there are.
pub fn draw(bytes: &[u8], title: Option<&str>) -> Result<String, String> {
    let title = title.filter(|title| !title.trim().is_empty());
    let story = Story::read(bytes)?;
    let layout = Layout::of(&story);
    let frame = Frame::of(&story, &layout, title);
    let mut svg = Svg::default();
    svg.put("<?xml version=\"1.0\" encoding=\"UTF-8\"?>");
    svg.put(&frame::root(&frame));
    let name = title.map_or_else(|| words::size(&story.bench), String::from);
    svg.put(&format!("<title id=\"picture-title\">{}</title>", escape(&name)));
    svg.put(&format!("<desc id=\"picture-desc\">{}</desc>", escape(&words::description(&story))));
    frame::heads(&mut svg, &story);
    // Pages may be dark.
    svg.rectangle("paper", (0.0, 0.0), (frame.width, frame.height), "fill=\"#ffffff\"");
    Canvas { story: &story, layout: &layout, frame: &frame }.paint(&mut svg);
    frame.paint(&mut svg, &layout);
    svg.put("</svg>");
    Ok(svg.0)
}
