// Typing: what keys and keyboards put into a text or take out of it. Each key has its place when it is pressed: where the
// caret stood then, or after what was typed before it. It comes into the document in its turn, after all that was done
// before, at what has become of that place; what comes until then goes to the program in one. No key is lost: what can't
// be put anywhere any more is told.
import { app, change, settled, tell, turnsSoFar } from "./app.js"
import { caretPlace, chosen, goOnAt, timesChosen } from "./choose.js"
import { isIn, mirror, onTyped } from "./field.js"
import { isLocked, sayLocked } from "./lock.js"
import { closeMenu } from "./menu.js"
import { allTextOf, isEmpty, markRun, plainTextOf, runAt, stepped, told, unmark } from "./place.js"
import { showWhyNot } from "./offers.js"

const host = document.getElementById("document")
// What is typed after so long is another move, in milliseconds.
const PAUSE = 4000

export { settled }

// What is typed at one place: its marks, since the last of it, and how much of it isn't made yet.
let go = null
// What was typed and has its turn to come.
let waiting = null

// Puts a text where the caret stands, in place of so many characters before and after it, or of what is selected.
function replace(before, after, text) {
  if (isLocked()) return sayLocked()
  const here = current()
  if (!here) return
  closeMenu()
  if (waiting?.go !== here || waiting.turn !== turnsSoFar()) waiting = begin(here)
  const typed = [...waiting.text]
  const own = Math.min(before, typed.length)
  waiting.text = typed.slice(0, typed.length - own).join("") + text
  waiting.before += before - own
  waiting.after += after
}
onTyped(replace, () => go !== null && go.times === timesChosen() && go.left > 0)

export const type = (text) => replace(0, 0, text)
// Takes away what is selected, or the character before the caret, or the one after it.
export const erase = (step) => (step > 0 ? replace(0, 1, "") : replace(1, 0, ""))

// What is typed on, or begun where the caret stands now.
function current() {
  if (go?.times === timesChosen() && (go.left > 0 || isSame(runAt(app.tree, go.marks), caretOf()))) return go
  const place = caretOf()
  if (!place || place.owner.id === 0) return null
  if (!isEmpty(place) && !plainTextOf(place)) {
    tell("Typing takes the place of text alone, and tags are selected here. Unwrap takes tags away.")
    return null
  }
  if (go && go.left === 0) unmark(app.tree, go.marks)
  go = { times: timesChosen(), marks: markRun(app.tree, place), left: 0, time: -Infinity }
  return go
}

const isSame = (one, other) => one !== null && other !== null && JSON.stringify(told(one)) === JSON.stringify(told(other))

function caretOf() {
  const { element } = chosen()
  return element ? { owner: element, from: [null, 0], to: [null, 0] } : caretPlace()
}

// Something typed that takes its turn.
function begin(here) {
  const typed = { go: here, text: "", before: 0, after: 0, turn: 0 }
  here.left += 1
  send(typed)
  typed.turn = turnsSoFar()
  return typed
}

async function send(typed) {
  const here = typed.go
  const refusal = await change("type", () => asked(typed), ({ caret }) => caret && goOn(here, caret), true)
  here.left -= 1
  if (here !== go && here.left === 0) unmark(app.tree, here.marks)
  if (refusal?.no && !["stale", "trouble", "gone"].includes(refusal.no)) showWhyNot(refusal)
  else if (refusal && typed.text) tell(`“${typed.text}” isn't in the document: ${refusal.why ?? "the place where it was typed is gone"}.`)
  if (caretPlace()) mirror(caretPlace())
}

// What the program is asked for, when its turn has come; none where its place is gone.
function asked(typed) {
  if (waiting === typed) waiting = null
  const { go: here, before, after, text } = typed
  const place = runAt(app.tree, here.marks)
  if (!place) return null
  const { owner, from, to } = place
  const over = isEmpty(place) ? { owner, from: stepped(from, -before, owner), to: stepped(to, after, owner) } : place
  return { place: told(over), text, on: performance.now() - here.time < PAUSE }
}

// The place after what was typed.
function goOn(here, [list, kid, unit]) {
  const owner = app.tree.nodes.get(list)
  const at = [kid === null ? null : app.tree.nodes.get(kid), unit]
  unmark(app.tree, here.marks)
  here.marks = markRun(app.tree, { owner, from: at, to: at })
  here.time = performance.now()
  goOnAt({ owner, from: at, to: at }, here === go && here.times === timesChosen())
}

// Copying, cutting and pasting: text alone, whatever tags stand in it.
document.addEventListener("paste", (event) => {
  if (!isIn(host)) return
  event.preventDefault()
  const text = event.clipboardData.getData("text/plain")
  if (text) type(text)
})
document.addEventListener("copy", (event) => {
  const { run } = chosen()
  if (!isIn(host) || !run || isEmpty(run)) return
  event.preventDefault()
  event.clipboardData.setData("text/plain", allTextOf(run))
})
document.addEventListener("cut", (event) => {
  const { run } = chosen()
  if (!isIn(host) || !run || isEmpty(run) || !plainTextOf(run)) return
  event.preventDefault()
  event.clipboardData.setData("text/plain", plainTextOf(run))
  erase(-1)
})
// What is dragged here isn't put anywhere.
for (const event of ["dragstart", "dragover", "drop"]) document.addEventListener(event, (event) => event.target.closest?.("#document, #typed") && event.preventDefault())
