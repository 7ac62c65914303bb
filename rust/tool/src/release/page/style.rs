//! How the page looks: dark on white, on a wide screen, on a narrow one, and on sheets of A4.

use crate::picture::style_in_page;

/// The style of the page and of the pictures in it.
pub fn style() -> String {
    format!("{SCREEN}{COLUMNS}{NARROW}{PAPER}{}", style_in_page())
}

const SCREEN: &str = "\
* { box-sizing: border-box }
html { background: #fff; color: #1a1a1a; font: 16px/1.5 system-ui, 'DejaVu Sans', Verdana, Arial, sans-serif }
body { margin: 0 }
main { max-width: 62rem; margin: 0 auto; padding: 1.5rem 1.25rem 3rem }
h1 { font-size: 2rem; line-height: 1.15; margin: 0 }
h2 { font-size: 1.35rem; line-height: 1.25; margin: 2.5rem 0 0.75rem; padding-top: 0.75rem; border-top: 1px solid #cfd4dc }
h3 { font-size: 1.05rem; margin: 0 }
p, ul, ol, dl { margin: 0.5rem 0 }
ul, ol { padding-left: 1.4rem }
code { font: 0.9em/1.4 'DejaVu Sans Mono', Consolas, Menlo, monospace; overflow-wrap: anywhere; unicode-bidi: isolate }
dl > div { display: grid; grid-template-columns: 9.5rem 1fr; gap: 0 1rem; padding: 0.2rem 0 }
header dl > div { grid-template-columns: 12.5rem 1fr }
dt { font-weight: bold }
dd { margin: 0; overflow-wrap: anywhere }
.small { font-size: 0.85em; color: #4b5260 }
.small code { display: inline-block }
.verdicts { display: flex; flex-wrap: wrap; gap: 1rem; margin-bottom: 1rem }
.verdict { flex: 1 1 20rem; padding: 1rem 1.25rem; border: 3px solid; border-left-width: 14px }
.verdict h2 { margin: 0; padding: 0; border: 0; font-size: 1.2rem }
.verdict p { color: #1a1a1a; margin-bottom: 0 }
.good { border-color: #14713a; background: #ebf7ef; color: #0e5a2d }
.bad { border-color: #b00020; background: #fdeff1; color: #93001b }
.reasons { padding-left: 2.2rem }
.reasons li { margin: 0 0 1rem; padding: 0.6rem 0.9rem; border-left: 5px solid #b00020; background: #faf5f5 }
table { border-collapse: collapse; width: 100%; margin: 0.75rem 0 }
caption { text-align: left; padding-bottom: 0.4rem; color: #4b5260 }
th, td { text-align: left; vertical-align: top; padding: 0.4rem 0.6rem; border: 1px solid #c3c9d3; overflow-wrap: break-word }
thead th { background: #eef1f5 }
tbody th { font-weight: bold; background: #f8f9fb }
.empty { color: #5c6370; font-style: italic }
.counts { font-weight: bold; background: #e8f0fb }
.mark { display: inline-block; border: 1px solid #1f5fa8; border-radius: 0.6em; padding: 0 0.45em; font-size: 0.75em; color: #1f5fa8 }
.wrong { color: #93001b; font-weight: bold; background: #fdeff1 }
tbody th code { font-weight: bold }
.hash { font-size: 0.9em; overflow-wrap: anywhere }
.proved { font-size: 0.92em }
p.proved { font-weight: bold; margin: 0.9rem 0 0.2rem }
figure { margin: 1rem 0; padding: 0.75rem; border: 1px solid #c3c9d3 }
figcaption { font-weight: bold; margin-bottom: 0.5rem; overflow-wrap: anywhere }
figure ul { font-size: 0.92em }
.picture { overflow-x: auto }
svg.run { display: block; width: 100%; max-width: 56rem; height: auto }
";

/// The columns of the tables, where there is room for columns.
const COLUMNS: &str = "\
@media print, screen and (min-width: 44.01rem) {
.boxes th:first-child { width: 27% }
.boxes th:nth-child(2), .boxes th:nth-child(3) { width: 20% }
.waits tbody th { white-space: nowrap }
.waits th:nth-child(2) { width: 34% }
.names code { overflow-wrap: normal }
.files th:first-child { width: 32% }
.files th:nth-child(5) { width: 30% }
.orders th:nth-child(2), .orders th:nth-child(3) { width: 18% }
.bench th:nth-child(4), .bench th:nth-child(5) { width: 22% }
}
";

/// A row of a table is a block there, and each cell has its column's head before it.
const NARROW: &str = "\
@media screen and (max-width: 44rem) {
main { padding: 1rem 0.75rem 2rem }
h1 { font-size: 1.6rem }
dl > div { display: block }
table, caption, tbody, tr, tbody th, td { display: block }
thead { display: none }
tbody tr { border: 1px solid #c3c9d3; margin-bottom: 0.75rem }
tbody th, td { border: 0; border-bottom: 1px solid #e3e7ee; padding: 0.35rem 0.6rem }
td:empty { display: none }
td::before { content: attr(data-label); display: block; font-size: 0.8em; font-weight: normal; font-style: normal; color: #4b5260 }
svg.run { width: 46rem }
}
";

const PAPER: &str = "\
@page { size: A4; margin: 15mm 14mm 16mm; @bottom-right { content: counter(page) ' of ' counter(pages); font: 8pt sans-serif; color: #4b5260 } }
@media print {
html { font-size: 9.5pt; line-height: 1.4 }
* { print-color-adjust: exact; -webkit-print-color-adjust: exact }
main { max-width: none; padding: 0 }
h1 { font-size: 20pt }
h2 { font-size: 13pt; margin-top: 6mm }
h2, h3, figcaption, caption, p.proved { break-after: avoid }
table, caption, tr, figure, .verdict, .reasons li, .proved li, dl > div { break-inside: avoid }
table.long { break-inside: auto }
thead { display: table-header-group; break-after: avoid }
tbody tr:first-child { break-before: avoid }
p, li { orphans: 3; widows: 3 }
.hash { font-size: 7.5pt }
.picture { overflow: visible }
svg.run { width: 145mm; max-width: 100% }
}
";
