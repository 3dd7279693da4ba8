//! The page on which a paper is stepped through.

use super::data;
use super::model::Model;
use super::section::{sections, Section};
use super::step::Step;
use super::svg::{Picture, LEGEND};
use super::value::{object, Value};
use super::view::{Answer, Changed, MOST_ROWS};
use super::xml::escaped;
use gadulnos::Board;

/// How many bytes of pictures a page may have. Steps behind that show none, but for the one that is shown at first.
const MOST_PICTURES: usize = 2_000_000;

/// A page.
pub struct Page {
    /// The paper's name.
    name: String,
    /// The step that is shown at first.
    first: usize,
    /// What stands behind the calls of a malformed tape.
    rest: Option<String>,
    /// The board behind the last step.
    board: Vec<Section>,
    steps: Vec<Value>,
    pictures: Pictures,
    /// The list of calls.
    list: String,
    /// The parts of the step that is shown at first: call, board, picture.
    shown: [String; 3],
}

/// The pictures of a page, each different from the one before it.
#[derive(Default)]
struct Pictures {
    all: Vec<Value>,
    last: String,
    bytes: usize,
}

impl Pictures {
    /// The number of a picture; nothing if there is no room for it, unless it must be there.
    fn add(&mut self, picture: &str, must: bool) -> Option<usize> {
        if picture != self.last {
            if self.bytes + picture.len() > MOST_PICTURES && !must {
                return None;
            }
            self.bytes += picture.len();
            self.last = picture.to_string();
            self.all.push(picture.into());
        }
        self.all.len().checked_sub(1)
    }
}

impl Page {
    /// The page of a paper before its first step.
    pub fn new(name: &str, first: usize, rest: Option<String>) -> Page {
        Page {
            name: name.to_string(),
            first,
            rest,
            board: Vec::new(),
            steps: Vec::new(),
            pictures: Pictures::default(),
            list: String::new(),
            shown: Default::default(),
        }
    }

    /// Adds a step and the board behind it.
    pub fn add(&mut self, step: &Step, board: &Board) {
        let model = Model::of(board);
        let now = sections(&model);
        if self.steps.is_empty() {
            self.board =
                now.iter().map(|now| Section { kind: now.kind, rows: Vec::new() }).collect();
        }
        let picture = Picture { title: None, model: &model }.to_string();
        let number = self.pictures.add(&picture, step.number == self.first);
        self.steps.push(data::step(step, &self.board, &now, number));
        self.list.push_str(&listed(step));
        if step.number == self.first {
            self.shown = [Answer(step).to_string(), self.columns(&now), picture];
        }
        self.board = now;
    }

    /// The sections of a board in two columns.
    fn columns(&self, now: &[Section]) -> String {
        let mut html = "<div class=\"columns\">\n<div>\n".to_string();
        // On the fresh board nothing counts as added.
        let before = if self.steps.len() > 1 { &self.board } else { now };
        for (before, now) in before.iter().zip(now) {
            if now.kind.name == "kernel" {
                html.push_str("</div>\n<div>\n");
            }
            html.push_str(&Changed { before, now }.to_string());
        }
        html.push_str("</div>\n</div>\n");
        html
    }

    /// The page, whole: XHTML that a browser takes for HTML too.
    pub fn finish(self) -> String {
        let kinds = self.board.iter().map(|section| data::kind(section.kind));
        let data = object([
            ("first", self.first.into()),
            ("most_rows", MOST_ROWS.into()),
            ("sections", Value::List(kinds.collect())),
            ("pictures", Value::List(self.pictures.all)),
            ("steps", Value::List(self.steps)),
        ]);
        let [answer, columns, picture] = self.shown;
        let rest = self
            .rest
            .map_or(String::new(), |rest| format!("<p class=\"rest\">{}</p>\n", escaped(&rest)));
        format!(
            include_str!("page.html"),
            name = escaped(&self.name),
            style = include_str!("page.css"),
            script = include_str!("page.js"),
            legend = LEGEND.join("<br/>\n"),
            list = self.list,
            rest = rest,
            answer = answer,
            columns = columns,
            picture = picture,
            data = data,
        )
    }
}

/// A line of the list of calls.
fn listed(step: &Step) -> String {
    let number = step.number;
    let (text, class, words) = match &step.made {
        None => ("the fresh board".to_string(), "start", String::new()),
        Some(made) if made.is_refused() => {
            (made.text(), "refused", format!("refused, {}", made.told.line.number))
        }
        Some(made) => (made.text(), "met", String::new()),
    };
    let text = escaped(&text);
    format!(
        "<li class=\"{class}\"><a href=\"#{number}\"><b>{number}</b> <span>{text}</span> \
         <i>{words}</i></a></li>\n"
    )
}
