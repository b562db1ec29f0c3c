// Finding in the whole document, of which only what is near sight is drawn.
import { app, listeners, tell } from "./app.js"
import { choose, chooseElement, chosen, rest, scrollTo } from "./choose.js"
import { make } from "./draw.js"
import { offerNames } from "./offers.js"
import { plainTextOf, rangeOf, told } from "./place.js"
import { aboutText, showPlaces } from "./places.js"
import { holdsText, lengthOf } from "./tree.js"

const bar = document.getElementById("finder")
const [input, by, count, all] = bar.querySelectorAll("input, select, output, [value=tag]")
// So many places are found at most.
const MOST = 10000
// So long a pattern is looked for, in milliseconds.
const LONG = 3000

// The document's text with where each text begins in it, made anew after a change.
let book = null
let found = []
let at = -1
listeners.push((changed) => {
  if (!changed) return
  book = null
  if (!bar.hidden) search(false)
})

export function openFinder() {
  bar.hidden = false
  const { run } = chosen()
  const text = run ? plainTextOf(run).trim() : ""
  if (text && !text.includes("\n")) input.value = text
  input.select()
  input.focus()
  search(true)
}

export function closeFinder() {
  bar.hidden = true
  asked++
  stop()
  CSS.highlights?.delete("found")
  const match = found[at]
  if (match?.node) chooseElement(match.node)
  else if (match) choosePart(match)
  rest()
}

// Texts in order; what stands in lists without text is kept apart by a line end.
function read() {
  const starts = []
  const nodes = []
  let text = ""
  const flows = new Map([[app.tree.top, false]])
  for (const node of app.tree.all(app.tree.root)) {
    if (node.kids) flows.set(node, holdsText(node))
    if (node.kind === "text") {
      starts.push(text.length)
      nodes.push(node)
      text += node.text
    } else if (node.kids && !flows.get(node.owner)) text += "\n"
  }
  return { text, starts, nodes }
}

// What is looked for; none where nothing is, and why where a pattern is none.
function wanted() {
  const words = input.value.trim().split(/\s+/).map((word) => word.replace(/[.*+?^${}()|[\]\\/]/g, "\\$&"))
  if (!input.value.trim()) return {}
  if (by.value !== "pattern") return { wanted: new RegExp(words.join("\\s+"), "giu") }
  try {
    return { wanted: new RegExp(input.value, "gmu") }
  } catch ({ message }) {
    return { why: `no pattern: ${message.split(": ").at(-1)}` }
  }
}

let whyNot = ""
// What was asked for last.
let asked = 0
async function search(isNew) {
  const { wanted: pattern, why = "" } = wanted()
  const mine = ++asked
  stop()
  whyNot = why
  found = []
  if (pattern && by.value === "attributes") found = withAttributes(pattern)
  else if (pattern) {
    book ??= read()
    if (by.value === "pattern") all.hidden = true
    const rows = await (by.value === "pattern" ? matched(pattern) : matches(pattern))
    // Another search has begun meanwhile, or the bar was closed.
    if (mine !== asked) return
    if (rows) found = rows
    else whyNot = "the pattern takes too long"
  }
  all.hidden = by.value === "attributes" || found.length === 0
  if (isNew) at = found.length ? 0 : -1
  else at = Math.min(at, found.length - 1)
  show()
}

function matches(pattern) {
  const rows = []
  for (const match of book.text.matchAll(pattern)) {
    rows.push([match.index, match.index + match[0].length])
    if (rows.length === MOST) break
  }
  return rows
}

// Ends what is being looked for.
let stop = () => {}

// The same for a pattern, beside all else, since one may take forever; none where it takes too long, or was ended.
function matched(pattern) {
  const worker = new Worker("match.js")
  return new Promise((resolve) => {
    const end = (rows) => {
      clearTimeout(timer)
      worker.terminate()
      stop = () => {}
      resolve(rows)
    }
    const timer = setTimeout(end, LONG, null)
    stop = () => end(null)
    worker.addEventListener("message", ({ data }) => end(data))
    worker.addEventListener("error", () => end(null))
    count.textContent = "…"
    worker.postMessage({ text: book.text, pattern, most: MOST })
  })
}

// The elements that have such attributes.
function withAttributes(pattern) {
  const nodes = []
  for (const node of app.tree.all(app.tree.root)) {
    pattern.lastIndex = 0
    if (node.attrs && pattern.test(node.attrs)) nodes.push({ node })
    if (nodes.length === MOST) break
  }
  return nodes
}

function step(way) {
  if (found.length === 0) return
  at = (at + way + found.length) % found.length
  show()
}

function show() {
  const none = whyNot || (input.value.trim() ? "nothing found" : "")
  count.textContent = found.length ? `${at + 1} of ${found.length === MOST ? `${MOST} or more` : found.length}` : none
  CSS.highlights?.delete("found")
  const match = found[at]
  if (!match) return
  if (match.node) {
    app.view.reveal(match.node).scrollIntoView({ block: "center" })
    return chooseElement(match.node)
  }
  const [start, end] = match.map(placeOf)
  for (const [node] of [start, end]) app.view.reveal(node)
  const ranges = [rangeOf({ from: start, to: end }, app.view)].filter(Boolean)
  if (CSS.highlights && ranges.length) CSS.highlights.set("found", new Highlight(...ranges))
  if (ranges.length) scrollTo(ranges[0].getBoundingClientRect())
}

// The text that a place of the whole text is in, and the unit there.
function placeOf(place, isEnd) {
  let low = 0
  let high = book.starts.length
  const before = isEnd ? place - 1 : place
  while (high - low > 1) {
    const middle = (low + high) >> 1
    if (book.starts[middle] <= before) low = middle
    else high = middle
  }
  const node = book.nodes[low]
  return [node, Math.min(lengthOf(node), [...node.text.slice(0, place - book.starts[low])].length)]
}

// Selects what was found, where it stands in one list; else goes to its start.
function choosePart(match) {
  const [from, to] = [placeOf(match[0]), placeOf(match[1], true)]
  const owner = from[0].owner
  choose(to[0].owner === owner ? { owner, from, to } : { owner, from, to: from })
}

// A tag round all that was found, as far as each stands in one text: it is chosen as for the one that is shown.
function tagAll() {
  const runs = found.map((match) => runOf(match)).filter(Boolean)
  const shown = found[at] && runOf(found[at])
  if (runs.length === 0 || !shown) return tell("What was found stands in several elements, and no tag can go round it.", true)
  bar.hidden = true
  CSS.highlights?.delete("found")
  choose(shown)
  offerNames(`Tags round all ${runs.length} that were found`, { kind: "wrap", run: shown }, { all: (name, pairs) => listAll(name, pairs, runs) })
}

function listAll(name, pairs, runs) {
  const isIn = (node) => node !== null && (node.name === name || isIn(node.owner))
  const open = runs.filter(({ owner }) => !isIn(owner))
  const rows = open.map((run) => ({ place: told(run), parts: [make("mark", "", plainTextOf(run))], note: `in ${run.owner.name}`, isTicked: true }))
  const ask = () => ({ rows, pairs, about: aboutText(rows.length, "place", 0, false) })
  showPlaces({ heading: `⟨${name}⟩ round what was found`, name, request: "tag-found", ask })
}

// What was found, as a run of texts side by side; none where it is in several lists, or goes over tags.
function runOf(match) {
  const [from, to] = [placeOf(match[0]), placeOf(match[1], true)]
  const run = { owner: from[0].owner, from, to }
  return to[0].owner === run.owner && plainTextOf(run) ? run : null
}

input.addEventListener("input", () => search(true))
by.addEventListener("change", () => {
  search(true)
  input.focus()
})
bar.addEventListener("submit", (event) => {
  event.preventDefault()
  step(1)
})
bar.addEventListener("click", ({ target }) => {
  if (target.value === "close") closeFinder()
  else if (target.value === "tag") tagAll()
  else if (target.value === "-1") step(-1)
})
bar.addEventListener("keydown", (event) => {
  if (event.key === "Escape") closeFinder()
  else if (event.key === "Enter" && event.shiftKey) step(-1)
  else return
  event.preventDefault()
  event.stopPropagation()
})
