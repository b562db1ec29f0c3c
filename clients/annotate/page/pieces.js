// A tag round each line, or each paragraph, of what is selected.
import { app, question } from "./app.js"
import { markRun, runAt, told, unmark } from "./place.js"
import { aboutText, showPlaces } from "./places.js"
import { lengthOf, sliceOf } from "./tree.js"

// Whether a run goes over the end of a line, in a text of its list.
export function hasLines({ owner, from: [first, from], to: [last, to] }) {
  const kids = owner.kids.slice(owner.kids.indexOf(first), owner.kids.indexOf(last) + 1)
  const part = (kid) => sliceOf(kid, kid === first ? from : 0, kid === last ? to : lengthOf(kid))
  return kids.some((kid) => kid.kind === "text" && part(kid).includes("\n"))
}

// Lists the pieces of a run; those that are left ticked get the tag, in one move.
export function openPieces(name, run, pairs = []) {
  const marks = markRun(app.tree, run)
  const ask = async (by) => {
    const place = () => runAt(app.tree, marks)
    const answer = await question("pieces", () => (place() ? { place: told(place()), name, by } : null))
    if (!answer) return null
    const rows = answer.pieces.filter(({ refused }) => !refused).map(({ place, text }) => ({ place, parts: [text], note: "", isTicked: true }))
    const what = answer.by === "lines" ? "line" : "paragraph"
    return { by: answer.by, rows, pairs, about: aboutText(rows.length, what, answer.pieces.length - rows.length, answer.more) }
  }
  return showPlaces({ heading: `⟨${name}⟩ round`, name, request: "tag-pieces", ask, closed: () => unmark(app.tree, marks) })
}
