//! Reports as text or JSON: a single one, or one for each symbol of a stream and the totals.

use super::files::Draft;
use super::progress::Progress;
use super::screen::{complain, Screen};
use crate::call::Call;
use crate::fault::Fault;
use crate::json::{document, line, Fields, Json};
use crate::options::{HTML, OUT, SVG};
use crate::report::Report;
use std::io::{self, IsTerminal};
use std::path::PathBuf;

pub struct Output {
    command: &'static str,
    json: bool,
    out: Option<PathBuf>,
    draft: Option<Draft>,
    svg: Option<PathBuf>,
    html: Option<PathBuf>,
    /// The picture to write, and whether it is one of a refusal.
    picture: Option<(String, bool)>,
    screen: Screen,
    progress: Progress,
    /// Standard output shows the result, so that all else there is a comment.
    commented: bool,
    symbols: usize,
}

impl Output {
    pub fn open(call: &Call) -> Result<Output, Fault> {
        let out = call.file(&OUT).map(PathBuf::from);
        let results = call
            .command
            .options
            .iter()
            .any(|option| option.name == OUT.name);
        Ok(Output {
            command: call.command.name,
            json: call.json(),
            commented: results && out.is_none(),
            out,
            draft: None,
            svg: call.file(&SVG).map(PathBuf::from),
            html: call.file(&HTML).map(PathBuf::from),
            picture: None,
            screen: Screen::open()?,
            progress: Progress::new(),
            symbols: 0,
        })
    }

    /// Whether a picture is wanted: the first one, or the first of a refusal.
    pub fn wants_picture(&self, refused: bool) -> bool {
        let better = match &self.picture {
            None => true,
            Some((_, of_refusal)) => refused && !of_refusal,
        };
        self.svg.is_some() && better
    }

    /// Whether nobody is left who would see what comes.
    pub fn has_no_reader(&self) -> bool {
        self.screen.reader_gone && self.out.is_none() && self.svg.is_none()
    }

    /// Delivers the only report of a call and tells the exit status.
    pub fn single(mut self, mut report: Report) -> Result<u8, Fault> {
        self.keep_picture(&mut report);
        if let (Some(path), Some(result)) = (&self.out, &report.result) {
            self.draft.insert(Draft::new(path)?).write(&result.file)?;
        }
        let mut notes = self.write_files()?;
        notes.extend(self.write_page(&report)?);
        let text = if self.json {
            report.json.extend(noted(&notes));
            document(&report.json)
        } else if let Some(rows) = &report.rows {
            rows.clone()
        } else {
            let result = report.result.as_ref().filter(|_| self.out.is_none());
            let mark = if result.is_some() { "# " } else { "" };
            let lines = report.summary.iter().chain(&notes);
            let text: String = lines.map(|line| format!("{mark}{line}\n")).collect();
            text + result.map_or("", |result| &result.screen)
        };
        self.print(&text)?;
        self.tell_reason("", &report);
        Ok(report.status)
    }

    /// A symbol more is counted, of which nothing is told yet.
    pub fn counted(&mut self) {
        self.symbols += 1;
        self.progress.show(self.symbols);
    }

    /// Delivers the report of one symbol of a stream.
    pub fn symbol(&mut self, number: usize, mut report: Report) -> Result<(), Fault> {
        self.keep_picture(&mut report);
        self.keep_result(number, &report)?;
        let text = if self.json {
            self.symbol_json(number, std::mem::take(&mut report.json))
        } else {
            self.symbol_text(number, &report)
        };
        self.print(&text)?;
        self.tell_reason(&format!("symbol {number}: "), &report);
        self.counted();
        Ok(())
    }

    /// Delivers the totals of a stream and tells the exit status.
    pub fn totals(mut self, mut report: Report) -> Result<u8, Fault> {
        let notes = self.write_files()?;
        let text = if self.json {
            report.json.extend(noted(&notes));
            format!("\n  ],\n  \"totals\": {}\n}}\n", line(&report.json))
        } else {
            let lines = report.summary.iter().chain(&notes);
            lines
                .map(|line| format!("{}{line}\n", self.mark()))
                .collect()
        };
        self.print(&text)?;
        Ok(report.status)
    }

    /// A fault ends a stream: what was printed is still a whole object.
    pub fn break_off(&mut self, fault: &Fault) -> Result<(), Fault> {
        if self.json && self.symbols > 0 {
            let fields = vec![("fault", Json::text(fault.message.clone()))];
            let text = format!("\n  ],\n  \"totals\": {}\n}}\n", line(&fields));
            return self.print(&text);
        }
        Ok(())
    }

    fn mark(&self) -> &'static str {
        if self.commented {
            "# "
        } else {
            ""
        }
    }

    fn print(&mut self, text: &str) -> Result<(), Fault> {
        self.progress.clear();
        self.screen.print(text)
    }

    fn symbol_text(&self, number: usize, report: &Report) -> String {
        let mark = self.mark();
        let mut text = format!("{mark}symbol {number}: ");
        text.push_str(&report.summary.join(&format!("\n{mark}")));
        text.push('\n');
        if self.commented {
            text.push_str(report.result.as_ref().map_or("", |result| &result.screen));
            text.push('\n');
        }
        text
    }

    fn symbol_json(&self, number: usize, fields: Fields) -> String {
        let start = match self.symbols {
            0 => format!(
                "{{\n  \"command\": \"{}\",\n  \"symbols\": [\n",
                self.command
            ),
            _ => ",\n".to_string(),
        };
        let mut object = vec![("symbol", Json::Number(number as i64))];
        object.extend(fields);
        format!("{start}    {}", line(&object))
    }

    /// The result of one symbol, on the way to its file.
    fn keep_result(&mut self, number: usize, report: &Report) -> Result<(), Fault> {
        let Some(path) = &self.out else {
            return Ok(());
        };
        let text = match (&report.result, &self.draft) {
            (Some(result), None) => format!("# symbol {number}\n{}", result.file),
            (Some(result), Some(_)) => format!("\n# symbol {number}\n{}", result.file),
            // The numbers of the symbols after it say that one is missing.
            (None, _) => return Ok(()),
        };
        if self.draft.is_none() {
            self.draft = Some(Draft::new(path)?);
        }
        self.draft
            .as_mut()
            .map_or(Ok(()), |draft| draft.write(&text))
    }

    fn keep_picture(&mut self, report: &mut Report) {
        let picture = report.picture.take();
        if let Some(picture) = picture.filter(|_| self.wants_picture(report.refused)) {
            self.picture = Some((picture, report.refused));
        }
    }

    /// Puts the files in their places and tells what was written.
    fn write_files(&mut self) -> Result<Vec<String>, Fault> {
        let mut notes = Vec::new();
        // Both are whole before either takes its place.
        let picture = match (&self.svg, self.picture.take()) {
            (Some(path), Some((picture, _))) => {
                let mut draft = Draft::new(path)?;
                draft.write(&picture)?;
                Some(draft)
            }
            _ => None,
        };
        if let Some(draft) = self.draft.take() {
            notes.push(format!("result written to {}", draft.finish()?));
        }
        if let Some(draft) = picture {
            notes.push(format!("picture written to {}", draft.finish()?));
        }
        Ok(notes)
    }

    /// Writes the report's page and tells so, if one is wanted.
    fn write_page(&self, report: &Report) -> Result<Option<String>, Fault> {
        let (Some(path), Some(page)) = (&self.html, &report.page) else {
            return Ok(None);
        };
        let mut draft = Draft::new(path)?;
        draft.write(page)?;
        Ok(Some(format!("page written to {}", draft.finish()?)))
    }

    /// Rows have no place for the reason, and a pipe takes what is printed away from the person, who
    /// should still have it.
    fn tell_reason(&mut self, symbol: &str, report: &Report) {
        let shown = report.rows.is_none() && io::stdout().is_terminal();
        if let (Some(reason), false) = (&report.reason, shown) {
            self.progress.clear();
            complain(&format!("{symbol}{reason}"));
        }
    }
}

/// What was written, as a field, if anything was.
fn noted(notes: &[String]) -> Option<(&'static str, Json)> {
    let list = notes.iter().map(|note| Json::text(note.clone())).collect();
    (!notes.is_empty()).then_some(("notes", Json::List(list)))
}
