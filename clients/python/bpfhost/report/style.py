"""The style of a report: light and dark, for narrow and wide windows."""

STYLE = """
:root { --page: #fbfaf7; --ink: #1f2328; --soft: #5b636d; --line: #d5d3cc; --card: #ffffff; --good: #1a7f4b; --bad: #b3261e;
  --taken: #1f6feb; --else: #b35900; --share: #8bb8f5; --mark: #fde4e1; color-scheme: light dark; }
@media (prefers-color-scheme: dark) {
  :root { --page: #14171b; --ink: #e4e6e8; --soft: #9aa3ad; --line: #363c44; --card: #1c2026; --good: #56c98a; --bad: #ff8a80;
    --taken: #6cb2ff; --else: #f0a35e; --share: #2f5d96; --mark: #4a2422; } }
* { box-sizing: border-box; }
body { margin: 0 auto; padding: 1rem; max-width: 72rem; background: var(--page); color: var(--ink);
  font: 16px/1.5 system-ui, sans-serif; overflow-wrap: anywhere; }
h1 { font-size: 1.5rem; margin: .5rem 0; } h2 { font-size: 1.15rem; margin: 2rem 0 .5rem; }
p, ul { margin: .5rem 0; } .soft { color: var(--soft); font-size: .9rem; }
code, pre, td.code, .graph text { font-family: ui-monospace, "DejaVu Sans Mono", monospace; font-size: 12px; }
.verdict { border-left: 6px solid var(--good); background: var(--card); padding: .75rem 1rem; border-radius: 4px; }
.verdict.bad { border-color: var(--bad); } .verdict strong { color: var(--good); } .verdict.bad strong { color: var(--bad); }
details { border: 1px solid var(--line); border-radius: 4px; margin: .3rem 0; background: var(--card); }
summary { padding: .35rem .6rem; cursor: pointer; } summary .at { color: var(--soft); font-size: .85rem; margin-left: .5rem; }
details.bad { border-color: var(--bad); background: var(--mark); } .why { margin: .3rem .6rem; color: var(--bad); }
.scroll { overflow-x: auto; }
table { border-collapse: collapse; font-size: .9rem; margin: .3rem 0; } th { text-align: left; color: var(--soft); font-weight: 500; white-space: nowrap; }
th, td { padding: .15rem .7rem .15rem .5rem; vertical-align: top; border-top: 1px solid var(--line); }
td.number, th.number { text-align: right; white-space: nowrap; font-variant-numeric: tabular-nums; } @media (min-width: 40rem) { .lines td.code { white-space: nowrap; } } tr.bad td { background: var(--mark); }
.bar { display: inline-block; height: .8rem; min-width: 1px; background: var(--taken); border-radius: 2px; vertical-align: middle; }
.bars { width: 100%; max-width: 36rem; } .bars td:last-child { width: 70%; }
.graph .box rect { fill: var(--card); stroke: var(--line); } .graph .box.folded rect { stroke-dasharray: 5 3; stroke: var(--soft); }
.graph .box.refused > rect:first-child { stroke: var(--bad); stroke-width: 2; } .graph text { fill: var(--ink); }
.graph text.refused { fill: var(--bad); font-weight: 700; } .graph .head, .graph .count { fill: var(--soft); }
.graph .box rect.share { fill: var(--share); stroke: none; stroke-dasharray: none; }
.graph .edge { fill: none; stroke-width: 1.5; } .graph .edge.taken { stroke: var(--taken); } .graph .edge.else { stroke: var(--else); }
.graph .arrow.taken, .graph text.taken { fill: var(--taken); } .graph .arrow.else, .graph text.else { fill: var(--else); }
.legend .taken { color: var(--taken); } .legend .else { color: var(--else); }
"""
