// The field that takes what is typed, by keys and dead keys, by input methods, and by a phone's keyboard. It stands at
// the caret, unseen, and holds the text round it, so that a keyboard may correct a word there; what changes in it goes
// into the document. While an input method composes, what it has so far is shown at the caret.
import { isEmpty, plainTextOf, stretchRound } from "./place.js"

export const field = document.getElementById("typed")
const composed = document.getElementById("composed")
// So many characters before and after what is chosen stand in the field, and so many of what is chosen at most.
const ROUND = 60
const MOST = 10000
// A field that holds fewer than these beside what is chosen is filled again, where there are more.
const FEW = 20

// What the field held, and from where to where it is chosen, when what is typed in it was last taken over.
let held = { text: "", from: 0, to: 0 }
let isComposing = false
// What is chosen, as the field is to show it.
let wanted = held
let put = () => {}
let isWaiting = () => false

// Called with how many characters before and after what is chosen are replaced, and by which text; `waits` says whether
// some of that isn't in the document yet.
export function onTyped(call, waits) {
  put = call
  isWaiting = waits
}

// Whether keys go to the document: by itself, or by the field.
export const isIn = (host) => document.activeElement === host || document.activeElement === field

// Shows what is chosen, where the field has the focus.
export function mirror(run) {
  if (!run) return
  wanted = mirrored(run)
  if (document.activeElement === field) show()
}

// Gives the field the focus.
export function enterField() {
  field.focus({ preventScroll: true })
  show()
}

function mirrored(run) {
  const chosen = isEmpty(run) ? "" : plainTextOf(run)
  if (chosen.length > MOST || (chosen === "" && !isEmpty(run))) return { text: "", from: 0, to: 0 }
  const [before, behind] = stretchRound(run, ROUND)
  return { text: before + chosen + behind, from: before.length, to: before.length + chosen.length }
}

// Fills the field, but for one that says the same of a shorter stretch: a keyboard forgets the word that it is at when
// the field is filled.
function show() {
  if (isComposing || isWaiting()) return
  const { text, from, to } = held
  const isChosen = text.slice(from, to) === wanted.text.slice(wanted.from, wanted.to)
  const front = Math.min(from, wanted.from)
  const rest = Math.min(text.length - to, wanted.text.length - wanted.to)
  // What the field has more than is wanted is right only where there is more.
  const isLong = (from <= wanted.from || wanted.from >= ROUND) && (text.length - to <= rest || rest >= ROUND)
  const isFront = text.slice(from - front, from) === wanted.text.slice(wanted.from - front, wanted.from)
  const isRest = text.slice(to, to + rest) === wanted.text.slice(wanted.to, wanted.to + rest)
  const isEnough = front >= Math.min(FEW, wanted.from) && rest >= Math.min(FEW, wanted.text.length - wanted.to)
  const isThere = field.value === text && field.selectionStart === from && field.selectionEnd === to
  if (isThere && isChosen && isLong && isFront && isRest && isEnough && text.length < MOST) return
  held = wanted
  field.value = held.text
  field.setSelectionRange(held.from, held.to)
}

// Takes over what has changed in the field.
function takeOver() {
  const text = field.value
  if (isComposing || text === held.text) return
  const at = field.selectionEnd
  const [front, rest] = [held.text.slice(0, held.from), held.text.slice(held.to)]
  // What stands after the caret is what stood there, or less of it.
  let kept = text.length - at
  while (!rest.endsWith(text.slice(text.length - kept)) || /^[\udc00-\udfff]/.test(text.slice(text.length - kept))) kept -= 1
  const made = text.slice(0, text.length - kept)
  let same = 0
  while (same < front.length && same < made.length && front[same] === made[same]) same += 1
  // A character outside the plane isn't cut.
  if (/[\ud800-\udbff]/.test(made[same - 1] ?? "")) same -= 1
  const count = (units) => [...units].length
  held = { text, from: made.length, to: made.length }
  put(count(front.slice(same)), count(rest.slice(0, rest.length - kept)), made.slice(same))
}

field.addEventListener("input", takeOver)
field.addEventListener("compositionstart", () => (isComposing = true))
field.addEventListener("compositionupdate", ({ data }) => compose(data))
field.addEventListener("compositionend", () => {
  isComposing = false
  compose("")
  // Some browsers put the text into the field only after this event.
  setTimeout(takeOver)
  takeOver()
})
field.addEventListener("blur", () => {
  isComposing = false
  compose("")
})
// Undo is the document's, not the field's.
field.addEventListener("beforeinput", (event) => event.inputType.startsWith("history") && event.preventDefault())

function compose(text) {
  composed.textContent = text
  composed.hidden = text === ""
}

// Both stand at the caret; where there is none, what is typed is still taken.
export function standAt(box) {
  if (!box) return
  const height = `${box.height}px`
  const place = { top: `${box.top}px`, left: `${Math.max(0, Math.min(box.left, innerWidth - 20))}px`, height, lineHeight: height }
  for (const each of [field, composed]) Object.assign(each.style, place)
}
