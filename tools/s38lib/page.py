"""A history as a page for a browser: jobs as lanes, filters, and for each entry its line, its operands and why. It is one file,
and asks the network for nothing."""
import json

from . import reasons
from .deck import split_act
from .values import rights_of

MOST_ENTRIES = 5_000


def operands(story, step):
    """The operands of an entry: each word, and the object that its pointer names, if it is known."""
    found = []
    for place, word in enumerate(split_act(step.text)[2] if step.text else [], 1):
        said = ""
        if place in step.objects:
            at = step.objects[place]
            rights = getattr(at, "rights", 0)
            said = f"{story.name(int(at))} (object {int(at)})" + (f", the pointer carries {rights_of(rights)}" if rights else "")
        found.append([word, said])
    return found


def lane_states(story):
    """What each job does at each entry: those that work, and those that wait."""
    working, waiting = set(), set()
    for step in story.steps:
        job = step.entry.job.number
        working.add(job)
        waiting.discard(job)
        if step.result == "waits":
            waiting.add(job)
        yield sorted(working), sorted(waiting)
        if step.entry.name == "FINISH":
            working.discard(job)


def entries(story, store):
    """Each entry for the page."""
    for (step, why), (working, waiting) in zip(reasons.every(story, store), lane_states(story)):
        receiver = story.receiver(step)
        code = step.entry.code or (step.entry.words[1] if step.entry.name == "FINISH" and step.entry.words[1:] else "")
        yield {"at": step.entry.position, "job": step.entry.job.number, "text": step.text or step.entry.name, "depth": step.depth,
               "result": step.result, "said": f"{receiver} = {step.said}" if receiver else step.said, "code": code,
               "lines": list(step.lines), "places": step.places, "objects": sorted({int(at) for at in step.objects.values()}),
               "operands": operands(story, step), "why": [line.strip() for line in why[1:]], "working": working, "waiting": waiting,
               "ended": step.ended_by.entry.position if step.ended_by else None}


def data(story, store=None):
    """All that the page shows."""
    many = list(entries(story, store))
    shown = many[:MOST_ENTRIES]
    touched = sorted({at for entry in shown for at in entry["objects"]})
    return {"jobs": [{"number": number, "name": job.name, "user": job.user, "template": job.template, "stage": job.stage}
                     for number, job in enumerate(story.deck.jobs, 1)],
            "entries": shown, "left": len(many) - len(shown), "deck": story.lines,
            "objects": {str(at): story.name(at) for at in touched}}


PAGE = """<!DOCTYPE html>
<html lang="en">
<head>
<meta charset="utf-8">
<meta http-equiv="Content-Security-Policy" content="default-src 'none'; style-src 'unsafe-inline'; script-src 'unsafe-inline'">
<meta name="viewport" content="width=device-width">
<title>A history of jobs</title>
<style>
body { font: 13px/1.4 "DejaVu Sans Mono", Menlo, Consolas, monospace; margin: 0; color: #222; display: grid; grid-template-columns: 1fr 38%; height: 100vh; }
header { grid-column: 1 / 3; padding: 6px 10px; background: #e8eef5; }
header label { margin-right: 14px; }
select, input { font: inherit; }
#log { overflow: auto; }
#side { overflow: auto; border-left: 1px solid #b8b8b8; padding: 8px 12px; }
table { border-collapse: collapse; width: 100%; }
th { position: sticky; top: 0; background: #e8eef5; text-align: left; padding: 3px 8px; }
td { padding: 1px 8px; vertical-align: top; border-left: 3px solid transparent; }
td.at { color: #8a8a8a; text-align: right; width: 1%; }
td.work { border-left-color: #b8b8b8; }
td.wait { background: #f4e3a1; border-left-color: #c77d0a; }
tr.entry { cursor: pointer; }
tr.entry:hover, tr.chosen { background: #eef4fb; }
tr.refused td.it { color: #c0182b; }
span.said { color: #5a6472; }
tr.refused span.said { color: #c0182b; }
#side pre { margin: 6px 0; white-space: pre-wrap; }
#side mark { background: #f4e3a1; }
#side h2 { font-size: 14px; margin: 8px 0 2px; }
#side td, #side th { padding: 1px 8px 1px 0; }
</style>
</head>
<body>
<header>
<label>job <select id="job"><option value="">all</option></select></label>
<label>object <select id="object"><option value="">all</option></select></label>
<label>code <select id="code"><option value="">all</option></select></label>
<span id="count"></span>
</header>
<main id="log"></main>
<aside id="side"><p>Choose an entry: here come its line of the deck, its operands, and why it was permitted or refused.</p></aside>
<script type="application/json" id="data">@DATA@</script>
<script>
"use strict";
const data = JSON.parse(document.getElementById("data").textContent);
const one = (name, text, kind) => { const made = document.createElement(name); if (text) made.textContent = text; if (kind) made.className = kind; return made; };
const of = id => document.getElementById(id);
const jobs = new Map(data.jobs.map(job => [job.number, job]));

function asked() {
  return Object.fromEntries(new URLSearchParams(location.hash.slice(1)));
}

function ask(more) {
  const now = new URLSearchParams(location.hash.slice(1));
  for (const [name, value] of Object.entries(more)) value ? now.set(name, value) : now.delete(name);
  location.hash = now.toString();
}

function choices(id, pairs) {
  for (const [value, text] of pairs) { const made = one("option", text); made.value = value; of(id).append(made); }
  of(id).addEventListener("change", () => ask({[id]: of(id).value}));
}

function fits(entry, now) {
  return (!now.job || jobs.get(entry.job).name === now.job) && (!now.object || entry.objects.includes(Number(now.object)))
    && (!now.code || entry.code === now.code);
}

function row(entry, stage) {
  const made = one("tr", "", "entry " + entry.result);
  made.id = "entry" + entry.at;
  made.append(one("td", String(entry.at), "at"));
  for (const job of stage) {
    const cell = one("td", "", entry.waiting.includes(job.number) ? "wait" : entry.working.includes(job.number) ? "work" : "");
    if (job.number === entry.job) {
      cell.classList.add("it");
      cell.style.paddingLeft = 8 + 16 * entry.depth + "px";
      cell.append(entry.text, one("span", entry.said === "done" ? "" : "  " + entry.said, "said"));
    }
    made.append(cell);
  }
  made.addEventListener("click", () => ask({entry: entry.at}));
  return made;
}

function drawLog(now) {
  const log = of("log");
  log.textContent = "";
  let stage = null, body = null, count = 0;
  for (const entry of data.entries) {
    if (!fits(entry, now)) continue;
    count += 1;
    if (jobs.get(entry.job).stage !== stage) {
      stage = jobs.get(entry.job).stage;
      const table = one("table"), head = one("tr");
      head.append(one("th", ""));
      for (const job of data.jobs.filter(job => job.stage === stage)) head.append(one("th", job.name + ", " + job.user + " runs " + job.template));
      table.append(head);
      log.append(table);
      body = table;
    }
    body.append(row(entry, data.jobs.filter(job => job.stage === stage)));
  }
  of("count").textContent = count + " of " + data.entries.length + " entries" + (data.left ? ", and " + data.left + " more that are not here" : "");
}

function drawSide(now) {
  const entry = data.entries.find(entry => String(entry.at) === now.entry);
  for (const chosen of document.querySelectorAll("tr.chosen")) chosen.classList.remove("chosen");
  if (!entry) return;
  const here = of("entry" + entry.at);
  if (here) { here.classList.add("chosen"); here.scrollIntoView({block: "nearest"}); }
  const side = of("side");
  side.textContent = "";
  side.append(one("h2", "entry " + entry.at + ", job " + jobs.get(entry.job).name), one("p", entry.text + "  ->  " + entry.said));
  if (entry.lines.length) {
    side.append(one("h2", (entry.lines.length > 1 ? "one of lines " : "line ") + entry.places.join(", ")));
    const shown = one("pre"), first = Math.max(entry.lines[0] - 4, 0);
    data.deck.slice(first, entry.lines[entry.lines.length - 1] + 3).forEach((text, place) => {
      const number = first + place + 1;
      shown.append(one(entry.lines.includes(number) ? "mark" : "span", String(number).padStart(5) + "  " + text), "\\n");
    });
    side.append(shown);
  }
  if (entry.operands.length) {
    side.append(one("h2", "operands"));
    const table = one("table");
    entry.operands.forEach(([word, said], place) => {
      const made = one("tr");
      made.append(one("td", String(place + 1)), one("td", word), one("td", said));
      table.append(made);
    });
    side.append(table);
  }
  side.append(one("h2", "why"));
  for (const line of entry.why.length ? entry.why : ["there is nothing to say"]) side.append(one("p", line));
}

function draw() {
  const now = asked();
  for (const id of ["job", "object", "code"]) of(id).value = now[id] || "";
  drawLog(now);
  drawSide(now);
}

choices("job", data.jobs.map(job => [job.name, job.name]));
choices("object", Object.entries(data.objects).map(([number, name]) => [number, number + " " + name]));
choices("code", [...new Set(data.entries.map(entry => entry.code).filter(Boolean))].sort().map(code => [code, code]));
addEventListener("hashchange", draw);
draw();
</script>
</body>
</html>
"""


def written(story, store=None):
    """The page of a story."""
    text = json.dumps(data(story, store)).replace("<", "\\u003c")
    return PAGE.replace("@DATA@", text)
