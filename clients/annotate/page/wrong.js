// What is missing and wrong of attributes, as libxml2 says: asked for a moment after each change, beside what else is asked.
import { app, listeners } from "./app.js"
import { ask } from "./ask.js"

// What was told last: `version`, `faults` by the numbers of nodes, `sentence`, `valid`.
let known = null
let asking = 0
const told = []

// Called where something new is known.
export const onWrong = (call) => told.push(call)

// What is known of the document as it is; nothing where that isn't asked yet.
const present = () => (known && known.version === app.state?.version ? known : null)
export const attributesValid = () => present()?.valid ?? false
export const attributesSentence = () => present()?.sentence ?? "attributes are looked at …"
export const faultsOf = (node) => present()?.faults.get(node.id) ?? []
export const countWrong = () => present()?.count ?? 0

async function look() {
  const version = app.state.version
  const answer = await ask("attribute-faults")
  if (answer.trouble || answer.stale || answer.version === undefined) return
  const faults = new Map()
  for (const each of answer.faults) faults.set(each.node, [...(faults.get(each.node) ?? []), each])
  known = { ...answer, faults }
  if (answer.version === version) for (const call of told) call()
}

listeners.push((isChanged) => {
  if (!isChanged && present()) return
  clearTimeout(asking)
  asking = setTimeout(() => look().catch(() => {}), known ? 250 : 0)
})

// The next place that isn't finished, or where an attribute is missing or wrong, in the order of the document.
export function nextPlace(after, step) {
  const order = new Map([...app.tree.all()].map((node, at) => [node, step * at]))
  const places = unfinished()
  if (step < 0) places.reverse()
  return places.find((node) => after && order.get(node) > order.get(after)) ?? places[0]
}

// All of them, in the order of the document.
export const unfinished = () => [...app.tree.all()].filter((node) => node.kids && ((node.verdict ?? "valid") !== "valid" || faultsOf(node).length))
