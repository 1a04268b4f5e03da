// What the trials look at in the page: scripts that run in it.

// The answers that the page shows, the oldest first.
const answers = () => [...document.querySelectorAll("article")].reverse().map(it => ({
  name: it.querySelector("h2").textContent,
  end: Number(it.dataset.end),
  look: it.className,
  facts: Object.fromEntries([...it.querySelectorAll("dl.facts > dt")].map(name => [name.textContent, name.nextSibling.textContent])),
  tables: [...it.querySelectorAll("tbody")].map(body => [...body.rows].map(row => [...row.cells].map(cell => cell.textContent))),
  sides: [...it.querySelectorAll(".side")].map(side => [...side.children].map(part => part.textContent)),
  said: it.querySelector(".answer").textContent,
  warnings: [...it.querySelectorAll(".warning")].map(line => line.textContent),
  meanings: [...it.querySelectorAll("li > code")].map(line => line.textContent),
  text: it.querySelector("pre").textContent,
  drawn: Boolean(it.querySelector(".picture > div")?.shadowRoot.querySelector("svg > title")),
  saves: [...it.querySelectorAll("a[download]")].map(link => link.download),
  asks: it.querySelector(".asking .drop")?.textContent ?? "",
  replies: [...it.querySelectorAll(".reply")].map(reply => reply.textContent),
}));

// How light a colour is, by the sum of WCAG 2.
function lightness(colour) {
  const parts = colour.match(/[\d.]+/g).slice(0, 3).map(it => it / 255);
  const [red, green, blue] = parts.map(it => (it <= 0.04045 ? it / 12.92 : ((it + 0.055) / 1.055) ** 2.4));
  return 0.2126 * red + 0.7152 * green + 0.0722 * blue;
}

// The colour behind an element.
function behind(element) {
  for (let it = element; it; it = it.parentElement) {
    const colour = getComputedStyle(it).backgroundColor;
    if (!/, 0\)$/.test(colour)) return colour;
  }
  return "rgb(255, 255, 255)";
}

// The least contrast between a text of the page and what is behind it, with the text's element.
function leastContrast() {
  const texts = [...document.querySelectorAll("main *")].filter(it =>
    it.checkVisibility() && [...it.childNodes].some(part => part.nodeType === 3 && part.textContent.trim()));
  const ratios = texts.map(it => {
    const both = [lightness(getComputedStyle(it).color), lightness(behind(it))].sort((a, b) => b - a);
    return [(both[0] + 0.05) / (both[1] + 0.05), it.tagName];
  });
  return ratios.sort((a, b) => a[0] - b[0])[0];
}

// What has the focus: the element, and whether it shows that it has.
function focused() {
  const it = document.activeElement, shown = it.type === "file" ? it.labels[0] : it;
  const label = it.getAttribute("aria-label") ?? shown.textContent.slice(0, 60);
  return { tag: it.tagName, id: it.id, label, shows: parseFloat(getComputedStyle(shown).outlineWidth) >= 2 };
}

// What the page's policy refuses of what is tried here, by the directive that refuses it.
async function refusals() {
  const found = new Set(), hear = it => found.add(it.effectiveDirective);
  document.addEventListener("securitypolicyviolation", hear);
  const image = document.createElement("img"), frame = document.createElement("iframe");
  const script = document.createElement("script");
  image.src = "https://nowhere.invalid/", frame.src = "https://nowhere.invalid/", script.textContent = "window.wasRun = true";
  document.body.append(image, frame, script);
  await fetch("https://nowhere.invalid/").catch(() => {});
  await new Promise(done => { setTimeout(done, 200); });
  for (const it of [image, frame, script]) it.remove();
  document.removeEventListener("securitypolicyviolation", hear);
  return { found: [...found].sort(), wasRun: Boolean(window.wasRun) };
}

// The name that an element has for a screen reader, by its own words.
function nameOf(it) {
  const labels = [...(it.labels ?? [])].map(label => label.textContent).join(" ");
  return (it.getAttribute("aria-label") || labels || it.textContent).trim();
}

// What of the page breaks a rule for screen readers, each with what breaks it.
function brokenRules() {
  const all = selector => [...document.querySelectorAll(selector)], found = [];
  const hold = (rule, those) => found.push(...those.map(it => `${rule}: ${it.outerHTML.slice(0, 80)}`));
  const levels = all("h1, h2, h3, h4").map(it => Number(it.tagName[1]));
  hold("a heading skips a level", all("h1, h2, h3, h4").filter((_, at) => at && levels[at] > levels[at - 1] + 1));
  hold("not one heading of the page", all("h1").slice(1));
  hold("not one main part", all("main").slice(1));
  hold("no name", all("input, button, a[href], [role=group], section[aria-label]").filter(it => !nameOf(it)));
  hold("no label", all("input").filter(it => !it.labels.length));
  hold("an id twice", all("[id]").filter(it => all(`[id="${it.id}"]`).length > 1));
  const named = it => ["aria-labelledby", "aria-describedby", "for"].flatMap(name => it.getAttribute(name)?.split(" ") ?? []);
  hold("names what is not there", all("[aria-labelledby], [aria-describedby], [for]").filter(it => !named(it).every(byId)));
  hold("a cell of heading without a scope", all("th").filter(it => !it.scope));
  hold("a table without a caption", all("table").filter(it => !it.caption));
  hold("a picture without words", all("img").filter(it => !it.alt));
  hold("a place in the order of Tab", all("[tabindex]").filter(it => it.tabIndex > 0));
  hold("what stands in a list is no item", all("ul > :not(li), dl > :not(dt, dd)"));
  hold("a colour alone", all("article").filter(it => !it.querySelector(".answer").textContent.trim()));
  if (!document.documentElement.lang || !document.title) found.push("no language or no title");
  return found;
}

// What the page says of a large file whose judging is stopped.
async function stopped() {
  take([new File([new Uint8Array(1 << 28)], "large")]);
  while (byId("stop").hidden) await new Promise(done => { setTimeout(done); });
  byId("stop").click();
  await last;
  return answers().at(-1);
}

// How many times the page could do something else while it judged a file, and whether a worker judged.
async function meanwhile() {
  const before = answers().length;
  let count = 0;
  take([new File([new Uint8Array(1 << 27)], "long")]);
  while (answers().length === before) {
    await new Promise(done => { setTimeout(done, 10); });
    count += 1;
  }
  return { count, byWorker: judge.worker instanceof Worker };
}
