// The last tag again, and the same tag on all places of the same text.
import { app, listeners, question, tell, turnsSoFar } from "./app.js"
import { choose, chosen, leaveAt } from "./choose.js"
import { make as element } from "./draw.js"
import { make } from "./offers.js"
import { isEmpty, plainTextOf, textOf, told } from "./place.js"
import { aboutText, showPlaces } from "./places.js"

// The name of the last element that was made, and its text.
let last = null
listeners.push((changed) => {
  if (changed && app.made?.name) last = { name: app.made.name, text: textOf(app.made).trim(), id: app.made.id }
})

// The last tag once more, round what is selected or where the caret stands.
export function tagAgain() {
  const { run, element: chosenElement } = chosen()
  if (!last) return tell("No tag was made yet that could be made again.")
  if (!run || run.owner.id === 0) return tell("Select what the tag is to go round, and press F4.")
  if (chosenElement) return make({ kind: "rename", node: chosenElement.id, name: last.name })
  if (isEmpty(run)) return make({ kind: "insert", place: told(run), name: last.name })
  wrapAgain(run)
}

// What is typed before it is answered comes after what was selected, not in its place. Where it is refused, and nothing was
// done meanwhile, that is selected again.
async function wrapAgain(run) {
  const move = { kind: "wrap", place: told(run), name: last.name }
  leaveAt({ owner: run.owner, to: run.to })
  const done = make(move)
  const turns = turnsSoFar()
  const refusal = await done
  if (refusal && refusal.no !== "stale" && turns === turnsSoFar()) choose(run)
}

// The last tag on all places of the text that is selected, or of its own.
export function tagEverywhere() {
  const { run, element: chosenElement } = chosen()
  if (chosenElement) return openEverywhere(chosenElement.name, textOf(chosenElement).trim(), chosenElement)
  if (!last) return tell("No tag was made yet that could be made on other places.")
  openEverywhere(last.name, (run && !isEmpty(run) && plainTextOf(run)) || last.text, app.tree.nodes.get(last.id))
}

// Lists the places of a text; those that are left ticked are tagged as this element is, in one move.
export async function openEverywhere(name, text, node = null, pairs = []) {
  if (!text.trim()) return tell(`⟨${name}⟩ holds no text of which there could be other places.`)
  const ask = async () => {
    const answer = await question("places", { name, text })
    if (!answer) return null
    const open = answer.places.filter(({ refused }) => !refused)
    return { rows: open.map((place) => rowOf(place, text)), pairs: node ? await pairsOf(node) : pairs, known: answer.known, about: aboutText(open.length, "place", answer.places.length - open.length, answer.more) }
  }
  const heading = `⟨${name}⟩ round “${text.length > 40 ? `${text.slice(0, 40)}…` : text}”`
  await showPlaces({ heading, name, request: "tag-places", ask })
}

// The attributes of an element, but for those of which each value stands once in a document.
async function pairsOf(node) {
  const answer = node?.attrs && app.tree.isThere(node) ? await question("attributes", { node: node.id }) : null
  const ids = new Set(["xml:id", ...(answer?.declared ?? []).filter(({ kind }) => kind === "ID").map(({ name }) => name)])
  return (answer?.pairs ?? []).filter(([name]) => !ids.has(name))
}

const rowOf = ({ place, before, behind, part, in: owner }, text) => (
  { place, parts: [before, element("mark", "", text), behind], note: `in ${owner}${part ? ", part of a word" : ""}`, isTicked: !part }
)
