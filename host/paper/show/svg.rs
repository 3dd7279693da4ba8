//! The tree of tables as an SVG picture.

use super::model::Model;
use super::tree::{Block, Kind, Tree, CHARACTER, LINE, PADDING};
use super::xml::escaped;
use std::fmt::{self, Display, Formatter};

/// What stands around the tree: at its sides, above it for the headings, above that for the title, below it for the
/// legend.
const MARGIN: usize = 12;
const HEADINGS: usize = 28;
const TITLE: usize = 36;

/// How wide a picture is at least, so that small trees are not drawn large.
const LEAST_WIDTH: usize = 900;

/// What the picture's letters and outlines mean.
pub const LEGEND: [&str; 3] = [
    "An entry is its index, the frame that it names and its rights: W writable, U user, H huge, - none of these.",
    "A page is its address and the frame that it lies in. Thick outline: a large page. Dashed: not on this board.",
    "(free): the frame is not marked. (shared): it is reached more than once. absent: a word that is not present.",
];

/// The picture of a board's tables.
pub struct Picture<'a> {
    /// What stands over it. Without a title there is no legend either.
    pub title: Option<&'a str>,
    /// The board.
    pub model: &'a Model,
}

/// As an element, which can stand in a page.
impl Display for Picture<'_> {
    fn fmt(&self, f: &mut Formatter) -> fmt::Result {
        let tree = Tree::of(self.model);
        let above = HEADINGS + self.title.map_or(0, |_| TITLE);
        let legend = if self.title.is_some() { &LEGEND[..] } else { &[] };
        let texts = legend.iter().copied().chain(self.title).map(str::len);
        let text = texts.max().unwrap_or_default() * CHARACTER;
        let width = tree.size.0.max(text).max(LEAST_WIDTH) + 2 * MARGIN;
        let below = above + tree.size.1;
        let height = below + legend.len() * LINE + MARGIN;
        writeln!(
            f,
            "<svg xmlns=\"http://www.w3.org/2000/svg\" viewBox=\"0 0 {width} {height}\" \
             fill=\"none\" stroke=\"currentColor\" font-family=\"monospace\" font-size=\"11\">"
        )?;
        if let Some(title) = self.title {
            writeln!(f, "<title>{}</title>", escaped(title))?;
        }
        writeln!(f, "<g transform=\"translate({MARGIN} {above})\">")?;
        tree.lines.iter().try_for_each(|line| write_line(f, line))?;
        tree.blocks.iter().try_for_each(|block| write_outline(f, block))?;
        writeln!(f, "</g>\n<g fill=\"currentColor\" stroke=\"none\">")?;
        writeln!(f, "<g transform=\"translate({MARGIN} {above})\">")?;
        tree.blocks.iter().try_for_each(|block| write_block(f, block))?;
        writeln!(f, "</g>\n<g font-family=\"sans-serif\">")?;
        for (heading, x) in &tree.headings {
            write_text(f, (MARGIN + x, above - 10), " font-weight=\"bold\"", heading)?;
        }
        if let Some(title) = self.title {
            write_text(f, (MARGIN, 24), " font-size=\"15\"", title)?;
        }
        for (line, y) in legend.iter().zip((below + LINE..).step_by(LINE)) {
            write_text(f, (MARGIN, y), "", line)?;
        }
        writeln!(f, "</g>\n</g>\n</svg>")
    }
}

/// A line of text.
fn write_text(f: &mut Formatter, at: (usize, usize), style: &str, text: &str) -> fmt::Result {
    let aligned = text.starts_with(' ') || text.contains("  ");
    let space = if aligned { " xml:space=\"preserve\"" } else { "" };
    writeln!(f, "<text x=\"{}\" y=\"{}\"{style}{space}>{}</text>", at.0, at.1, escaped(text))
}

/// A curve from an entry to what it leads to.
fn write_line(f: &mut Formatter, line: &[(usize, usize); 2]) -> fmt::Result {
    let [(x, y), (to_x, to_y)] = *line;
    let bend = x + to_x.saturating_sub(x) / 2;
    writeln!(f, "<path d=\"M{x} {y}C{bend} {y} {bend} {to_y} {to_x} {to_y}\"/>")
}

/// A block's outline, and what shades the name of a table.
fn write_outline(f: &mut Formatter, block: &Block) -> fmt::Result {
    let (x, y, width, height) = (block.x, block.y, block.width, block.height());
    let style = match block.kind {
        Kind::Table => " rx=\"3\"",
        Kind::Page => " rx=\"8\"",
        Kind::LargePage => " rx=\"8\" stroke-width=\"3\"",
        Kind::Outside => " rx=\"8\" stroke-dasharray=\"4 3\"",
        Kind::More => return Ok(()),
    };
    writeln!(f, "<rect x=\"{x}\" y=\"{y}\" width=\"{width}\" height=\"{height}\"{style}/>")?;
    if block.kind != Kind::Table {
        return Ok(());
    }
    let height = LINE + PADDING / 2;
    let shade = "rx=\"3\" fill=\"currentColor\" fill-opacity=\"0.12\"";
    writeln!(f, "<rect x=\"{x}\" y=\"{y}\" width=\"{width}\" height=\"{height}\" {shade}/>")
}

/// A block's text.
fn write_block(f: &mut Formatter, block: &Block) -> fmt::Result {
    let name = if block.kind == Kind::Table { " font-weight=\"bold\"" } else { "" };
    let styles = [name].into_iter().chain(std::iter::repeat(""));
    let mut lines = block.text.iter().enumerate().zip(styles);
    lines.try_for_each(|((line, text), style)| {
        write_text(f, (block.x + PADDING, block.middle(line) + 4), style, text)
    })
}
