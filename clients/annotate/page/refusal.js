// Why not: a sentence at a tag, with the list and the kids that stand in the way outlined, until the next move. What is
// missing in a list is told there too, and may be taken over.
import { app, listeners, question } from "./app.js"
import { rest } from "./choose.js"
import { make, worded } from "./draw.js"

const host = document.getElementById("document")
const box = document.getElementById("reason")
const [sentence, takeOver, close] = box.children

// What is outlined, and the node at whose tag the sentence stands.
let outlined = []
let told = null

const REASONS = {
  "bad-name": "that isn't a name of XML.",
  "bad-text": "the text holds a character that XML doesn't allow.",
  "close-mark": "the texts would then hold ]]> side by side, which XML doesn't allow.",
  deep: "more than 512 elements would stand one inside another.",
  "root-shape": "a document has one root element, and nothing beside it.",
}

// A refusal in words, with names that would do in its place.
export function sentenceOf({ no, what, list, why, new: isNew }, move = {}, instead = []) {
  if (why) return `Refused. ${why}${instead.length ? ` What may stand here: ${instead.map((name) => `\`${name}\``).join(", ")}.` : ""}`
  if (no === "shape") return `Refused: ${REASONS[what] ?? `the place has changed (${what}).`}`
  if (no === "limit") return "Refused: the document would be past a limit of the program."
  if (no === "memory") return "Refused: there is too little memory."
  if (no !== "impossible") return `Refused: ${no} ${what}`
  const owner = app.tree.nodes.get(list)
  if (isNew) return `Refused: ⟨${move.name}⟩ can't hold this, whatever is added. Or the DTD doesn't have it.`
  const name = owner?.owner === null ? "the document" : `⟨${owner?.name}⟩`
  return `Refused: no added elements could then make ${name} valid.`
}

const boxOf = (node) => (node.owner === null ? host : app.view.box(node))

function outline(id, className) {
  const node = app.tree.nodes.get(id)
  const shown = node && (node.kind === "text" ? [...host.querySelectorAll(`.text[data-id="${id}"]`)] : [boxOf(node)])
  for (const each of shown ?? []) {
    each?.classList.add(className)
    if (each) outlined.push([each, className])
  }
}

// Outlines the list that a refusal speaks of, and the kids that stand in each other's way in it.
export function showRefused({ list, kids = [] }) {
  forget()
  outline(list, "refusing")
  for (const kid of kids) outline(kid, "in-way")
}

// A sentence, with the whole content model that it is about, where that is long: it is shown when it is wanted.
export function withModel(text, model) {
  if (!model) return worded(text)
  const more = make("details", "model", make("summary", "", "its content model"), make("code", "", model))
  return [...worded(text), " ", more]
}

// Says a sentence after a node's tag, where it covers nothing; `take` may be offered with it. Parts of the sentence may be
// elements that are missing and may have several names: they are chosen here.
export function say(node, text, take = null, model = "") {
  told = node
  sentence.replaceChildren(...(model ? withModel(text, model) : inParts(text)))
  takeOver.hidden = take === null
  takeOver.onclick = take
  box.dataset.kind = take ? "missing" : "why"
  // Where the reason stands in the list itself, it is only said to those who hear the page.
  const element = boxOf(node)
  box.classList.toggle("heard", !!element?.querySelector(":scope > .why")?.textContent)
  const tag = element?.querySelector(":scope > .tag")
  if (tag) tag.after(box)
  else host.prepend(box)
  box.hidden = false
}

// A sentence, or its parts, as it is shown.
export function inParts(text) {
  const parts = typeof text === "string" ? [text] : text
  return parts.flatMap((part) => (typeof part === "string" ? worded(part) : [choiceOf(part)]))
}

// The names that an element may have, the first chosen; which of them is, stands in its `chosen`.
export function choiceOf(element) {
  const choice = document.createElement("select")
  choice.className = "names"
  choice.ariaLabel = "The name of a missing element"
  choice.append(...element.choices.map((name) => new Option(name, name)))
  element.chosen = element.choices[0]
  choice.addEventListener("change", () => (element.chosen = choice.value))
  return choice
}

export function forget() {
  for (const [each, className] of outlined) each.classList.remove(className)
  outlined = []
  hush()
}

export function hush() {
  told = null
  box.hidden = true
}

export const isSaying = () => told !== null

close.addEventListener("click", () => {
  forget()
  rest()
})
listeners.push((changed) => changed && forget())

// Why the list of a node can't be mended, as the program tells it: asked once for each node and version, for all that
// are drawn in one.
let asked = new Map()
let wanted = []
export function whyOf(node) {
  if (!asked.has(node.id)) {
    if (wanted.length === 0) setTimeout(askWhy)
    asked.set(node.id, new Promise((done) => wanted.push([node.id, done])))
  }
  return asked.get(node.id)
}

async function askWhy() {
  const asking = wanted
  wanted = []
  const answer = await question("why", { nodes: asking.map(([id]) => id) })
  for (const [at, [, done]] of asking.entries()) done(answer?.reasons[at] ?? null)
}
listeners.push((changed) => changed && (asked = new Map()))

// The reason stands at the tag of each list that can't be mended.
app.view.explain = async (node, element) => {
  const answer = await whyOf(node)
  element.replaceChildren(...withModel(answer?.why ?? "", answer?.model))
}
