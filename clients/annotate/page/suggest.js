// Words that were tagged the same way before, and have no tag here: one after another, each is taken or passed by a key.
import { app, tell } from "./app.js"
import { ask } from "./ask.js"
import { choose, select } from "./choose.js"
import { make as element } from "./draw.js"
import { make } from "./offers.js"
import { panel } from "./sides.js"
import { pairsText } from "./pairs.js"
import { showPlaces } from "./places.js"
import { lengthOf } from "./tree.js"

const box = document.getElementById("suggestions")
const list = box.querySelector("ol")
const all = box.querySelector(".all")
// What was passed isn't suggested again, as long as the page is open; and the row to go on with.
const passed = new Set()
let at = 0
let isWanted = false

export const showSuggestions = panel("suggestions", "before", fill)

// Shows them, and goes to the first.
export function openSuggestions() {
  isWanted = true
  at = 0
  if (box.hidden) showSuggestions()
  else goOn()
}

// What is looked for takes a while, and nothing waits for it: what was found of an earlier document isn't shown.
async function fill() {
  const rows = await found()
  if (!rows || box.hidden) return
  const more = rows.length ? "Enter or a click tags the words, Delete passes them." : NONE
  box.querySelector("p").textContent = more
  all.hidden = rows.length < 2
  list.replaceChildren(...rows.map(rowOf))
  if (isWanted) goOn()
}
const NONE = "No words that were tagged the same way three times stand here without their tag."

// The suggestions of the document as it is, but for those that were passed.
async function found() {
  const answer = await ask("suggestions")
  if (answer.trouble) tell(answer.trouble)
  if (answer.stale || answer.trouble || answer.version !== app.state.version) return null
  const starts = startsOf()
  const told = answer.rows.map((row) => ({ ...row, key: [row.text, row.name, starts.get(row.place.from[0]) + row.place.from[1]].join("\0") }))
  return told.filter(({ key }) => !passed.has(key))
}

// Lists all of them; those that are left ticked are tagged, in one move.
export async function tagAll() {
  const ask = async () => {
    const rows = (await found()) ?? []
    if (rows.length === 0) return void tell(NONE)
    const open = rows.map((row) => (
      { place: { place: row.place, name: row.name, pairs: row.pairs }, parts: [row.before, element("mark", "", row.text), row.behind], note: `⟨${tagOf(row)}⟩`, isTicked: true }
    ))
    return { rows: open, about: `${open.length} suggestion${open.length === 1 ? "" : "s"}. Those that are ticked are tagged, in one move.` }
  }
  await showPlaces({ heading: "All suggestions", request: "take-suggestions", ask })
}

// Where each text begins in all of the text, which tags don't change.
function startsOf() {
  const starts = new Map()
  let at = 0
  for (const node of app.tree.all()) {
    if (node.kind !== "text") continue
    starts.set(node.id, at)
    at += lengthOf(node)
  }
  return starts
}
const tagOf = ({ name, pairs }) => [name, pairsText(pairs)].filter(Boolean).join(" ")

function rowOf(row) {
  const times = `was ⟨${tagOf(row)}⟩ ${row.count} times; ${row.here} here`
  const button = element("button", "", row.before, element("mark", "", row.text), row.behind, element("span", "note", times))
  const item = element("li", "", button)
  button.addEventListener("focus", () => show(row))
  button.addEventListener("click", () => take(row, item))
  button.addEventListener("keydown", (event) => {
    const step = { ArrowDown: 1, ArrowUp: -1 }[event.key]
    if (step) list.children[indexOf(item) + step]?.firstChild.focus()
    else if (event.key === "Delete" || event.key === "Backspace") pass(row, item)
    else return
    event.preventDefault()
  })
  return item
}

const indexOf = (item) => [...list.children].indexOf(item)

function placeOf({ place: { list: owner, from, to } }) {
  const end = ([kid, unit]) => [app.tree.nodes.get(kid), unit]
  return { owner: app.tree.nodes.get(owner), from: end(from), to: end(to) }
}

// Shows the words in the document.
function show(row) {
  const run = placeOf(row)
  if (!run.owner || !run.from[0] || !run.to[0]) return
  const { activeElement } = document
  select(run)
  app.view.reveal(run.from[0])
  getSelection().focusNode?.parentElement.scrollIntoView({ block: "center" })
  choose(run)
  activeElement.focus({ preventScroll: true })
}

async function take(row, item) {
  at = indexOf(item)
  isWanted = true
  const refusal = await make({ kind: "wrap", place: row.place, name: row.name, pairs: row.pairs }, "tag")
  if (refusal) fill()
}

function pass(row, item) {
  passed.add(row.key)
  at = indexOf(item)
  item.remove()
  goOn()
}

// The row that is next has the focus.
function goOn() {
  isWanted = false
  const next = list.children[Math.min(at, list.children.length - 1)]
  next?.firstChild.focus()
}

all.addEventListener("click", tagAll)
