// The places that aren't finished: the next one by a key, and all of them in a list, each with what is missing there or why
// it can't be finished.
import { app } from "./app.js"
import { ask } from "./ask.js"
import { bringUp, choose, chooseElement } from "./choose.js"
import { make } from "./draw.js"
import { missingIn, missingParts, takeOver } from "./offers.js"
import { textOf } from "./place.js"
import { inParts, say, showRefused, whyOf } from "./refusal.js"
import { panel } from "./sides.js"
import { faultsOf, nextPlace, onWrong, unfinished } from "./wrong.js"

const host = document.getElementById("document")
// So many places are listed at most.
const MOST = 500
// So much of a place's text is shown.
const EXCERPT = 50

// The next place that isn't finished, with what is missing there or why it can't be finished.
let last = null
export async function goToNext(step) {
  const node = nextPlace(last && app.tree.nodes.get(last.id) === last ? last : null, step)
  if (node) await goTo(node)
}

async function goTo(node) {
  last = node
  bringUp(node)
  if (node.owner === null) choose(null)
  else chooseElement(node)
  host.focus({ preventScroll: true })
  if (isWrong(node)) return say(node, `${wrongOf(node)}. Enter opens the menu.`)
  if (node.verdict === "impossible") {
    const { why, kids, model } = (await whyOf(node)) ?? {}
    if (last === node && why) {
      showRefused({ kids })
      say(node, why, null, model)
    }
    return
  }
  const looking = setTimeout(() => last === node && say(node, "What is missing here is looked for …"), 400)
  urgent += 1
  const answer = await missingIn(node).finally(() => (urgent -= 1))
  clearTimeout(looking)
  if (last === node && answer) say(node, missingParts(answer), answer.missing?.length ? () => takeOver(node, chosenIn(answer)) : null)
}

// Whether its list is valid, and its attributes aren't.
const isWrong = (node) => (node.verdict ?? "valid") === "valid" && faultsOf(node).length > 0
const wrongOf = (node) => faultsOf(node).map(({ sentence }) => sentence).join("; ")
const chosenIn = ({ missing }) => Object.fromEntries(missing.filter((each) => each.chosen).map(({ id, chosen }) => [id, chosen]))

// The list. A row is asked for when it comes into sight, one after another; what a user asks for goes first.
let urgent = 0
let waiting = []
let isAsking = false
const seen = new IntersectionObserver((entries) => {
  for (const { target, isIntersecting } of entries) {
    if (!isIntersecting) continue
    seen.unobserve(target)
    waiting.push(target)
  }
  askNext()
})

export const showMissing = panel("lacking", "lacks", fill)
onWrong(() => document.getElementById("lacking").hidden || fill(document.getElementById("lacking")))

function fill(box) {
  seen.disconnect()
  waiting = []
  const nodes = unfinished()
  box.querySelector("p").textContent = nodes.length === 0 ? "Nothing is missing." : "A click goes to the place."
  const rows = nodes.slice(0, MOST).map(rowOf)
  const more = nodes.length > MOST ? [make("li", "note", `and ${nodes.length - MOST} more places`)] : []
  box.querySelector("ol").replaceChildren(...rows, ...more)
  for (const row of rows) seen.observe(row)
}

function rowOf(node) {
  const text = textOf(node).trim().replace(/\s+/g, " ")
  const place = make("button", node.verdict === "impossible" ? "bad" : "open", make("span", "name", node.name || "the document"), " ",
    make("span", "note", text.length > EXCERPT ? `${text.slice(0, EXCERPT)}…` : text))
  place.addEventListener("click", () => goTo(node))
  const row = make("li", "", place, make("p", "sentence", "…"))
  row.node = node
  return row
}

async function askNext() {
  if (isAsking) return
  isAsking = true
  try {
    while (waiting.length) {
      const row = waiting.shift()
      if (row.isConnected) await tellRow(row)
    }
  } finally {
    isAsking = false
  }
}

async function tellRow(row) {
  const sentence = row.querySelector(".sentence")
  const { node } = row
  if (isWrong(node)) return sentence.replaceChildren(...inParts(`${wrongOf(node)}.`))
  if (node.verdict === "impossible") return sentence.replaceChildren(...inParts((await whyOf(node))?.why ?? ""))
  const answer = await quietly(node, row)
  if (!answer) return sentence.replaceChildren("")
  sentence.replaceChildren(...inParts(missingParts(answer)))
  if (!answer.missing?.length) return
  const take = make("button", "take", "Take over")
  take.addEventListener("click", () => takeOver(node, chosenIn(answer)))
  row.append(take)
}

// Asks what is missing in a list, after what else is looked for: the program looks for one thing at a time, the last.
const PAUSE = 150
async function quietly(node, row) {
  while (row.isConnected) {
    if (urgent === 0 && !document.querySelector("dialog[open]")) {
      const answer = await ask("missing", { node: node.id })
      if (!answer.stale) return answer.trouble ? null : answer
    }
    await new Promise((done) => setTimeout(done, PAUSE))
  }
  return null
}
