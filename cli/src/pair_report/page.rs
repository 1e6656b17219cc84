//! The whole page: every style and picture is in it, so that it needs no network.

use super::pair::Pair;
use super::sheet::sheet;
use crate::svg::escaped;
use crate::words::count;

pub fn page(pairs: &[Pair]) -> String {
    let title = match pairs {
        [pair] => escaped(&pair.name),
        pairs => count(pairs.len(), "pair"),
    };
    let sheets: String = pairs.iter().map(sheet).collect();
    format!(
        "<!DOCTYPE html>\n<html lang=\"en\">\n<head>\n<meta charset=\"utf-8\"/>\n\
         <title>Pair report: {title}</title>\n{STYLE}</head>\n<body>\n{HATCH}{sheets}</body>\n\
         </html>\n"
    )
}

/// Black on white, and a sheet a pair: A4 and Letter both have room for 240 mm between the margins.
const STYLE: &str = r##"<style>
@page{margin:12mm}
*{box-sizing:border-box}
body{margin:0;background:#ddd;color:#000;font:10pt/1.35 Helvetica,Arial,sans-serif}
section{display:flex;flex-direction:column;width:210mm;min-height:240mm;margin:8mm auto;padding:12mm;background:#fff;overflow-wrap:anywhere}
h1{margin:0 0 3mm;font-size:17pt;line-height:1.2}
h1.long{font-size:10pt}
h2{margin:3mm 0 1mm;font-size:11pt}
p{margin:0 0 1.5mm}
.kind{margin:0;font-size:9pt}
.verdict{margin:0 0 2.5mm;padding:2.5mm 3mm;border:1.5pt solid #000;font-size:12pt}
.warning{padding-left:3mm;border-left:3pt solid #000}
.small{font-size:8.5pt}
table{border-collapse:collapse;width:100%}
th,td{padding:.7mm 2mm;border:.5pt solid #000;text-align:left;vertical-align:top}
th{font-weight:normal;font-size:8.5pt}
.figures{margin:2mm 0 1.5mm}
.figures td{font-size:14pt;font-weight:bold}
.figures th,.figures td{width:16.66%}
.refusals{font-size:9pt;line-height:1.2}
.refusals td:nth-child(2){text-align:right}
.refusals td:first-child,.refusals td:nth-child(2){white-space:nowrap}
.facts{font-size:8.5pt;line-height:1.2}
.facts th,.facts td{padding:.4mm 2mm}
.facts th{width:38mm}
svg{width:100%;height:auto}
svg text{font-size:11px}
.tick{text-anchor:middle}
.end{text-anchor:end}
.axis{stroke:#000;stroke-width:1px}
.refused{fill:#000}
.wrong{fill:url(#hatch);stroke:#000;stroke-width:.6px}
.sent{fill:#777}
.hands{display:flex;gap:6mm;margin-top:auto;padding-top:11mm}
.hands span{flex:1;padding-top:1mm;border-top:.75pt solid #000;font-size:8.5pt}
.hands span:last-child{flex:2}
footer{margin-top:3mm;font-size:8pt}
.many h2{margin:1.5mm 0 .5mm}
.many .verdict{padding:1.5mm 3mm;font-size:11pt}
.many .figures td{font-size:12pt}
.many .refusals,.many .refusals th{font-size:7pt;line-height:1.05}
.many .refusals th,.many .refusals td{padding:.3mm 2mm}
.many .facts th,.many .facts td{padding:.2mm 2mm}
.many .hands{padding-top:8mm}
.many footer{margin-top:1.5mm}
.hatch{position:absolute;width:0;height:0}
@media print{
body{background:none}
section{width:auto;margin:0;padding:0;break-inside:avoid;break-after:page}
section:last-child{break-after:auto}
}
</style>
"##;

/// The pattern of columns with wrong bits, once for all pictures.
const HATCH: &str = r##"<svg class="hatch" aria-hidden="true"><defs>
<pattern id="hatch" width="4" height="4" patternUnits="userSpaceOnUse">
<rect width="4" height="4" fill="#fff"/><path d="M0 4L4 0M-1 1L1-1M3 5L5 3" stroke="#000"/>
</pattern></defs></svg>
"##;
