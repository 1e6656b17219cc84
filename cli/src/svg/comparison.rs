//! The page of received points: beside the decided ones, how far each tone is off, bit loading.

use super::distances::Distances;
use super::legend::{self, Sign};
use super::loading::Chart;
use super::page::{document, drawn, title, tone_signs};
use super::pen::Pen;
use super::symbol::{Compared, MARGIN};
use super::vector_panels::{self, VectorPanel};
use super::vectors::{groups, VectorGroup};
use crate::files::Class;

pub fn draw(compared: &Compared) -> String {
    let symbol = &compared.symbol;
    let title = title(symbol.set);
    let groups = groups(compared);
    let mut pen = Pen::default();
    pen.text((MARGIN, 32.0), "title", &title);
    pen.text((MARGIN, 52.0), "plain", &symbol.caption);
    pen.text((MARGIN, 86.0), "head", "Received and decided points");
    pen.text((MARGIN + 250.0, 86.0), "plain", &note(&groups));
    let panels = vector_panels::lay(&groups, 122.0);
    legend::draw(&mut pen, &vector_signs(&panels), (MARGIN, 110.0));
    let end = vector_panels::draw(&mut pen, &panels, 122.0);
    pen.text((MARGIN, end + 20.0), "head", "How far off");
    let distances = Distances::new(compared, end + 36.0);
    let signs = [distances.sign(), Sign::HalfWay];
    legend::draw(&mut pen, &signs, (MARGIN + 165.0, end + 20.0));
    let end = distances.draw(&mut pen);
    pen.text((MARGIN, end + 20.0), "head", "Bit loading");
    let signs = tone_signs(symbol);
    legend::draw(&mut pen, &signs, (MARGIN + 165.0, end + 20.0));
    let end = Chart::new(symbol, end + 36.0).draw(&mut pen);
    document(&title, STYLE, pen, end)
}

/// How the panels are to be read.
fn note(groups: &[VectorGroup]) -> String {
    let mut note = "in steps of the grid, before the gain".to_string();
    if groups.iter().any(VectorGroup::is_shared) {
        note.push_str("; the larger, the more tones");
    }
    if groups.iter().any(|group| group.laid_over) {
        note.push_str("; \u{394}: seen from the decided points");
    }
    note
}

/// What is drawn of the points.
fn vector_signs(panels: &[VectorPanel]) -> Vec<Sign> {
    let holds = |test: fn(Class) -> bool| panels.iter().any(|panel| test(panel.group.class));
    drawn(&[
        (Sign::Received, panels.iter().any(|panel| !panel.has_many())),
        (Sign::ManyReceived, panels.iter().any(VectorPanel::has_many)),
        (
            Sign::Decided,
            holds(|class| matches!(class, Class::Data(_))),
        ),
        (Sign::FillerPoint, holds(|class| class == Class::Monitored)),
        (Sign::SilentZero, holds(|class| class == Class::Silent)),
        (
            Sign::PossiblePoint,
            panels.iter().any(VectorPanel::shows_possible),
        ),
        (
            Sign::FartherPoint,
            panels.iter().any(VectorPanel::has_outside),
        ),
    ])
}

const STYLE: &str = "<style>
.vector{stroke:#000;stroke-width:1px}
.received{fill:#fff;fill-opacity:.7;stroke:#000;stroke-width:1.2px}
</style>
";
