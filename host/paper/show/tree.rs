//! The tree of tables laid out: columns by level from the root to the pages, blocks in them, and lines between.

use super::label;
use super::model::{Model, TableView, WordView};
use super::row::runs;
use calls::PAGE;
use gadulnos::{Frame, Place};
use std::collections::HashMap;

/// The most rows that a table shows, and how high a column is that takes no more blocks: so that all of it can be read
/// on a sheet of paper.
const MOST_ROWS: usize = 24;
const FULL: usize = 1200;

/// How many like entries are folded into one row.
const LEAST_RUN: usize = 3;

/// How wide a character is, how high a line, and what stands around and between.
pub const CHARACTER: usize = 7;
pub const LINE: usize = 15;
pub const PADDING: usize = 6;
const BETWEEN_COLUMNS: usize = 52;
const BETWEEN_BLOCKS: usize = 9;

/// The tree of a board.
pub struct Tree {
    /// What stands over the columns, each with its place from the left.
    pub headings: Vec<(String, usize)>,
    /// The blocks.
    pub blocks: Vec<Block>,
    /// The lines between them: where each begins and ends, from the left and from the top.
    pub lines: Vec<[(usize, usize); 2]>,
    /// How wide and how high all of it is.
    pub size: (usize, usize),
}

/// A block of text.
pub struct Block {
    /// What it stands for.
    pub kind: Kind,
    /// Its text, line by line.
    pub text: Vec<String>,
    /// Its column, from the left.
    column: usize,
    /// Its place from the left.
    pub x: usize,
    /// Its place from the top.
    pub y: usize,
    /// How wide it is: as wide as the widest of its column.
    pub width: usize,
}

/// What a block stands for.
#[derive(Clone, Copy, PartialEq, Eq)]
pub enum Kind {
    /// A table: its first line names it, and the others are entries.
    Table,
    /// A page, or a run of pages.
    Page,
    /// A large page.
    LargePage,
    /// Something that is not on the board.
    Outside,
    /// How much is not drawn.
    More,
}

impl Block {
    /// How wide its text is.
    fn text_width(&self) -> usize {
        let longest = self.text.iter().map(String::len).max();
        longest.unwrap_or_default() * CHARACTER + 2 * PADDING
    }

    /// How high it is.
    pub fn height(&self) -> usize {
        self.text.len() * LINE + PADDING
    }

    /// The middle of one of its lines, from the top.
    pub fn middle(&self, line: usize) -> usize {
        self.y + PADDING / 2 + line * LINE + LINE / 2
    }
}

/// A tree in the making.
struct Layout<'a> {
    model: &'a Model,
    tables: HashMap<(u64, Frame), &'a TableView>,
    /// The tables that were come to, each with its block if there was room for it.
    drawn: HashMap<(u64, Frame), Option<usize>>,
    blocks: Vec<Block>,
    /// Of each line the block and the row that it begins at, and the block that it leads to.
    lines: Vec<(usize, usize, usize)>,
    columns: Vec<Column>,
}

/// A column in the making.
#[derive(Clone, Default)]
struct Column {
    /// Where its next block may begin.
    end: usize,
    /// How many tables or pages its blocks stand for.
    drawn: usize,
}

impl Tree {
    /// The tree of a board.
    pub fn of(model: &Model) -> Tree {
        let levels = usize::try_from(model.levels).unwrap_or_default();
        let tables = model.tables.iter().map(|table| ((table.level, table.frame), table));
        let mut layout = Layout {
            model,
            tables: tables.collect(),
            drawn: HashMap::new(),
            blocks: Vec::new(),
            lines: Vec::new(),
            columns: vec![Column::default(); levels + 1],
        };
        layout.table(model.levels, model.root, 0);
        layout.tell_left_out();
        layout.finish()
    }
}

impl Layout<'_> {
    /// Draws a table and what lies below it, from a place on: its block, if there is room for it.
    fn table(&mut self, level: u64, frame: Frame, top: usize) -> Option<usize> {
        if let Some(drawn) = self.drawn.get(&(level, frame)) {
            return *drawn;
        }
        let column = usize::try_from(self.model.levels.saturating_sub(level)).ok()?;
        let top = self.room(column).map(|end| end.max(top));
        let block = top.and_then(|top| self.table_with_room(level, frame, column, top));
        self.drawn.insert((level, frame), block);
        block
    }

    fn table_with_room(
        &mut self,
        level: u64,
        frame: Frame,
        column: usize,
        top: usize,
    ) -> Option<usize> {
        let (table, model) = (*self.tables.get(&(level, frame))?, self.model);
        let rows = runs(&table.words, LEAST_RUN, |word, first, behind| {
            word_follows(model, word, first, behind)
        });
        let below = rows.iter().take(MOST_ROWS).map(|row| self.below(column + 1, row, top + LINE));
        let below: Vec<Option<usize>> = below.collect();
        // The first row stands beside what it leads to.
        let beside = below.first().copied().flatten().and_then(|first| self.blocks.get(first));
        let y = beside.map_or(top, |first| top.max(first.y.saturating_sub(LINE)));
        let text = label::table(model, table, &rows, MOST_ROWS);
        let block = self.place(column, Kind::Table, text, y, 1);
        let ends = below.iter().zip(1..).filter_map(|(end, row)| Some((row, (*end)?)));
        self.lines.extend(ends.map(|(row, end)| (block, row, end)));
        Some(block)
    }

    /// Draws what a run of entries leads to.
    fn below(&mut self, column: usize, run: &[WordView], top: usize) -> Option<usize> {
        let (model, lead) = (self.model, run.first()?.lead.as_ref()?);
        let link = &lead.link;
        let (kind, text) = match link.place {
            Place::Table => return self.table(link.level - 1, link.entry.frame(), top),
            Place::LargePage => (Kind::LargePage, label::large_page(model, lead)),
            Place::Outside => (Kind::Outside, label::outside(lead)),
            Place::Page => {
                let here = model.frame(link.entry.frame()).is_some();
                let kind = if here { Kind::Page } else { Kind::Outside };
                (kind, label::pages(model, lead, run.len()))
            }
        };
        let end = self.room(column)?;
        Some(self.place(column, kind, text, end.max(top), run.len()))
    }

    /// Where a column's next block may begin; nothing if the column is full.
    fn room(&self, column: usize) -> Option<usize> {
        let end = self.columns.get(column)?.end;
        (end < FULL).then_some(end)
    }

    /// Puts a block that stands for so many tables or pages into a column.
    fn place(
        &mut self,
        column: usize,
        kind: Kind,
        text: Vec<String>,
        y: usize,
        count: usize,
    ) -> usize {
        let block = Block { kind, text, column, x: 0, y, width: 0 };
        if let Some(column) = self.columns.get_mut(column) {
            column.end = y + block.height() + BETWEEN_BLOCKS;
            column.drawn += count;
        }
        self.blocks.push(block);
        self.blocks.len() - 1
    }

    /// Says below each column how many tables or pages of its level are not drawn, for want of room there or before.
    fn tell_left_out(&mut self) {
        for (at, level) in (0..self.columns.len()).zip((0..=self.model.levels).rev()) {
            let Column { drawn, end } = self.columns[at];
            let left_out = self.all(level).saturating_sub(drawn);
            if left_out > 0 {
                self.place(at, Kind::More, vec![format!("and {left_out} more")], end, 0);
            }
        }
    }

    /// How many tables of a level there are, and on level 0 pages, with what else the entries above it lead to.
    fn all(&self, level: u64) -> usize {
        let tables = self.model.tables.iter().filter(|table| table.level == level).count();
        let above = self.model.tables.iter().filter(|table| table.level == level + 1);
        let leads =
            above.flat_map(|table| table.words.iter().filter_map(|word| word.lead.as_ref()));
        tables + leads.filter(|lead| lead.link.place != Place::Table).count()
    }

    /// Gives each column its place.
    fn finish(mut self) -> Tree {
        let mut headings = Vec::new();
        let mut x = 0;
        for (at, level) in (0..self.columns.len()).zip((0..=self.model.levels).rev()) {
            let heading = if level == 0 { "pages".to_string() } else { format!("level {level}") };
            let mut column: Vec<&mut Block> =
                self.blocks.iter_mut().filter(|block| block.column == at).collect();
            let widest = column.iter().map(|block| block.text_width()).max().unwrap_or_default();
            let width = widest.max(heading.len() * CHARACTER);
            column.iter_mut().for_each(|block| (block.x, block.width) = (x, width));
            headings.push((heading, x));
            x += width + BETWEEN_COLUMNS;
        }
        let height = self.columns.iter().map(|column| column.end).max().unwrap_or_default();
        let lines = self.lines.iter().filter_map(|(from, row, to)| {
            let (from, to) = (self.blocks.get(*from)?, self.blocks.get(*to)?);
            Some([(from.x + from.width, from.middle(*row)), (to.x, to.middle(0))])
        });
        let lines = lines.collect();
        Tree { headings, lines, blocks: self.blocks, size: (x - BETWEEN_COLUMNS, height) }
    }
}

/// Whether a word stands so many behind another in a run: the next indices, frames and pages, all else the same.
fn word_follows(model: &Model, word: &WordView, first: &WordView, behind: u64) -> bool {
    let looks = |word: &WordView| {
        let (lead, frame) = (word.lead.as_ref()?, word.entry.frame());
        let looks = (model.frame(frame).is_some(), label::note(model, frame), lead.has_others());
        (lead.link.place == Place::Page).then_some(looks)
    };
    let addr = |word: &WordView| word.lead.as_ref().map(|lead| lead.addr().get());
    looks(first).is_some()
        && looks(first) == looks(word)
        && word.index == first.index + behind
        && word.entry.word() == first.entry.word().wrapping_add(behind * PAGE)
        && addr(word) == addr(first).map(|addr| addr.wrapping_add(behind * PAGE))
}
