"""The style of a report's page, for light and dark, and for narrow and wide."""

STYLE = '''
:root { color-scheme: light dark; --back: #fff; --text: #1c2330; --quiet: #5a6475; --line: #d7dbe2; --links: #b3261e;
  --apart: #2e7d32; --nothing: #e3e6eb; --on-nothing: #4a5261 }
@media (prefers-color-scheme: dark) { :root { --back: #14181f; --text: #e6e9ee; --quiet: #a3acba; --line: #3a4150;
  --links: #e5534b; --apart: #3f9b45; --nothing: #2c3340; --on-nothing: #b6bfcd } }
body { font: 15px/1.5 system-ui, "DejaVu Sans", sans-serif; background: var(--back); color: var(--text); margin: 0 }
main { max-width: 1060px; margin: 24px auto; padding: 0 16px; overflow-wrap: anywhere }
h1 { font-size: 24px; margin: 0 0 4px } h2 { font-size: 18px; margin: 32px 0 8px } h3 { font-size: 15px; margin: 20px 0 4px }
.sentence { font-size: 19px; line-height: 1.4; font-weight: 600; margin: 16px 0 }
.note { color: var(--quiet); font-size: 13px; margin: 4px 0 12px } small { color: var(--quiet); font-size: 13px }
.legend { font-size: 13px; line-height: 2.2 } .legend span { white-space: nowrap; margin-right: 14px }
.scroll { overflow-x: auto; max-width: 100% }
table { border-collapse: collapse } code { font-size: 13px } ul { padding-left: 20px }
i { display: inline-block; width: 24px; height: 24px; line-height: 24px; border-radius: 4px; font-style: normal;
  text-align: center; font-size: 14px; color: #fff; margin-right: 2px; vertical-align: middle }
i.links { background: var(--links) } i.apart { background: var(--apart) }
i.nothing { background: var(--nothing); color: var(--on-nothing) }
.matrix td { padding: 2px; text-align: center; white-space: nowrap; min-width: 54px } .matrix .no { color: var(--quiet);
  font-size: 12px }
.matrix th[scope=row] { text-align: right; font-weight: 500; padding: 2px 10px 2px 0; position: sticky; left: 0;
  background: var(--back); max-width: 200px; overflow: hidden; text-overflow: ellipsis; white-space: nowrap; z-index: 1 }
.matrix th[scope=col] { width: 54px; min-width: 54px; height: 120px; vertical-align: bottom; padding: 0 0 6px;
  font-weight: 400 }
.matrix th span { writing-mode: vertical-rl; transform: rotate(180deg); display: inline-block; max-height: 160px;
  overflow: hidden; text-overflow: ellipsis; white-space: nowrap }
.small { font-size: 12px } .small td, .small th[scope=col] { min-width: 18px; width: 18px; padding: 1px }
.small i { display: block; width: 16px; height: 14px; line-height: 14px; font-size: 10px; border-radius: 2px;
  margin: 0 auto 1px }
.scroll.small { max-height: 90vh; overflow: auto }
.small thead th, .small thead td { position: sticky; top: 0; background: var(--back); z-index: 2 }
.small thead td { left: 0; z-index: 3 }
.small tbody tr:hover { background: var(--nothing) }
.graphs { display: flex; flex-wrap: wrap; gap: 8px 24px } figure { margin: 0; max-width: 100% }
figcaption { font-weight: 600 } svg { max-width: 100%; height: auto; display: block }
svg text, svg circle { fill: var(--text); font-size: 12px } path { fill: none; stroke-width: 1.6 }
path.links { stroke: var(--links); stroke-width: 2.6 } path.apart { stroke: var(--apart) }
path.nothing { stroke: var(--quiet); stroke-dasharray: 3 3; opacity: .7 }
details { border-top: 1px solid var(--line); padding: 6px 0 } summary { cursor: pointer }
.list { font-size: 13px; width: 100% } .list td, .list th { border-top: 1px solid var(--line); padding: 4px 8px 4px 0;
  vertical-align: top; text-align: left; min-width: 60px }
@media print { .scroll { overflow: visible } }
'''
