//! The whole page: title, points, bit loading.

use super::groups::{groups, Group};
use super::legend::{self, Sign};
use super::loading::Chart;
use super::panels::{self, Panel};
use super::pen::{escaped, Pen};
use super::symbol::{Symbol, MARGIN, WIDTH};
use crate::files::{Class, TableSet};
use crate::words::{count, mode_word, shortened};

pub fn draw(symbol: &Symbol) -> String {
    let title = title(symbol.set);
    let groups = groups(symbol);
    let mut pen = Pen::default();
    pen.text((MARGIN, 32.0), "title", &title);
    pen.text((MARGIN, 52.0), "plain", &symbol.caption);
    pen.text((MARGIN, 86.0), "head", "Points by bit count");
    let note = match groups.len() {
        0 => "none: every tone is silent",
        _ => "in steps of the grid, before the gain",
    };
    pen.text((MARGIN + 165.0, 86.0), "plain", note);
    let panels = panels::lay(&groups, 122.0);
    legend::draw(&mut pen, &point_signs(&groups, &panels), (MARGIN, 110.0));
    let end = panels::draw(&mut pen, &panels, 122.0);
    pen.text((MARGIN, end + 20.0), "head", "Bit loading");
    let signs = tone_signs(symbol);
    legend::draw(&mut pen, &signs, (MARGIN + 165.0, end + 20.0));
    let end = Chart::new(symbol, end + 36.0).draw(&mut pen);
    document(&title, "", pen, end)
}

/// What was drawn, down to `end`, as a picture of its own, with styles besides those of all pages.
pub fn document(title: &str, styles: &str, pen: Pen, end: f64) -> String {
    let (title, body) = (escaped(title), pen.finish());
    format!(
        "<svg xmlns=\"http://www.w3.org/2000/svg\" viewBox=\"0 0 {WIDTH} {end}\" \
         width=\"{WIDTH}\" height=\"{end}\" role=\"img\">\n<title>{title}</title>\n{STYLE}{styles}\
         <rect width=\"100%\" height=\"100%\" style=\"fill:#fff\"/>\n{body}</svg>\n"
    )
}

pub fn title(set: &TableSet) -> String {
    format!(
        "{}: {}, {} of {}",
        shortened(&set.name),
        mode_word(set.coded),
        count(set.tone_count(), "tone"),
        count(set.carriers(), "sub-carrier")
    )
}

/// What is drawn of the points.
fn point_signs(groups: &[Group], panels: &[Panel]) -> Vec<Sign> {
    let holds = |test: fn(Class) -> bool| groups.iter().any(|group| test(group.class));
    let spots = || groups.iter().flat_map(|group| &group.spots);
    let signs = [
        (
            Sign::DataPoint,
            holds(|class| matches!(class, Class::Data(_))),
        ),
        (
            Sign::MonitoredPoint,
            holds(|class| class == Class::Monitored),
        ),
        (Sign::SilentPoint, holds(|class| class == Class::Silent)),
        (
            Sign::PossiblePoint,
            panels.iter().any(Panel::shows_possible),
        ),
        (
            Sign::RefusedPoint,
            spots().any(|spot| !spot.refused.is_empty()),
        ),
        (Sign::OutsidePoint, panels.iter().any(Panel::has_outside)),
    ];
    drawn(&signs)
}

/// What is drawn of the bit loading.
pub fn tone_signs(symbol: &Symbol) -> Vec<Sign> {
    let set = symbol.set;
    let holds = |test: fn(Class) -> bool| set.count(test) > 0;
    let signs = [
        (Sign::Bits, holds(|class| matches!(class, Class::Data(_)))),
        (
            Sign::MonitoredTone,
            holds(|class| class == Class::Monitored),
        ),
        (Sign::SilentTone, holds(|class| class == Class::Silent)),
        (Sign::AbsentTone, set.tone_count() < set.carriers()),
        (Sign::RefusedTone, !symbol.refused.is_empty()),
    ];
    drawn(&signs)
}

pub fn drawn(signs: &[(Sign, bool)]) -> Vec<Sign> {
    let drawn = signs.iter().filter(|(_, drawn)| *drawn);
    drawn.map(|(sign, _)| *sign).collect()
}

const STYLE: &str = r##"<style>
text{font-family:Helvetica,Arial,sans-serif;font-size:12px;fill:#000}
.title{font-size:18px;font-weight:bold}
.head{font-size:15px;font-weight:bold}
.name{font-weight:bold}
.tick{font-size:11px}
.middle{text-anchor:middle}
.end{text-anchor:end}
.label{font-size:11px;paint-order:stroke;stroke:#fff;stroke-width:3px}
path,rect{fill:none}
.frame,.axis{stroke:#000;stroke-width:1px}
.zero{stroke:#aaa;stroke-width:1px}
.could{stroke:#777;stroke-width:3px;stroke-linecap:round}
.data{stroke:#000;stroke-linecap:round}
.large{stroke-width:8px}
.middling{stroke-width:4.5px}
.small{stroke-width:2px}
.monitored{fill:#fff;stroke:#000;stroke-width:1.6px}
.refused{stroke:#000;stroke-width:1.5px}
.mark{stroke:#000;stroke-width:1px;stroke-dasharray:4 3}
.bar{fill:#aaa;stroke:#000;stroke-width:1px}
.area{fill:#aaa}
.solid{fill:#000}
.hatched{fill:url(#hatch)}
</style>
<defs><pattern id="hatch" width="4" height="4" patternUnits="userSpaceOnUse">
<rect width="4" height="4" style="fill:#fff"/>
<path d="M0 4L4 0M-1 1L1-1M3 5L5 3" style="stroke:#000"/>
</pattern></defs>
"##;
