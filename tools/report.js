// The page of tools/report: stepping through a trace, and the filter of the tables.
"use strict";
(function () {
  const find = (name) => document.getElementById(name);
  const shots = JSON.parse(find("shots").textContent);
  const chart = Array.from(find("chart").children);
  let at = 0;
  let timer = null;

  function show(step) {
    at = Math.max(0, Math.min(shots.length - 1, step));
    const shot = shots[at];
    find("slide").value = at;
    find("step").textContent = shot.step;
    find("said").textContent = [shot.named, shot.said].filter(Boolean).join(" = ");
    const table = find("states");
    table.textContent = "";
    shot.at.forEach(([text, moved], who) => {
      const row = table.insertRow();
      row.insertCell().textContent = who === 0 ? "home" : "remote " + (who - 1);
      row.insertCell().textContent = text;
      row.className = moved ? "moved" : "";
    });
    let first = null;
    for (const row of chart) {
      const step = Number(row.dataset.step);
      row.className = step === at ? "now" : step < at ? "past" : "";
      first = first || (step === at ? row : null);
    }
    if (first) {
      find("chart").scrollTop = first.offsetTop - find("chart").offsetTop - 120;
    }
  }

  function filter(words) {
    const wanted = words.toLowerCase().split(/\s+/).filter(Boolean);
    let shown = 0;
    const rows = document.querySelectorAll("table.rows tbody tr");
    for (const row of rows) {
      const text = row.textContent.toLowerCase();
      row.hidden = !wanted.every((word) => text.includes(word));
      shown += row.hidden ? 0 : 1;
    }
    find("shown").textContent = shown + " of " + rows.length + " rows";
  }

  function run() {
    clearInterval(timer);
    timer = timer === null ? setInterval(() => show(at + 1), 700) : null;
    find("run").textContent = timer === null ? "run" : "pause";
  }

  find("first").onclick = () => show(0);
  find("back").onclick = () => show(at - 1);
  find("on").onclick = () => show(at + 1);
  find("run").onclick = run;
  find("slide").oninput = (event) => show(Number(event.target.value));
  find("filter").oninput = (event) => filter(event.target.value);
  document.addEventListener("keydown", (event) => {
    if (event.target.tagName !== "INPUT" && event.key.startsWith("Arrow")) {
      show(at + ({ ArrowRight: 1, ArrowLeft: -1 }[event.key] || 0));
    }
  });
  const asked = new URLSearchParams(location.hash.slice(1));
  find("filter").value = asked.get("filter") || "";
  filter(find("filter").value);
  show(Number(asked.get("step") || 0));
})();
