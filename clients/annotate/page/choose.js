// What is chosen in the document: a run of a list, a place in a text, or an element; and the caret.
import { app, isHeld, listeners } from "./app.js"
import { empties } from "./draw.js"
import { enterField, field, isIn, mirror, standAt } from "./field.js"
import { isLocked } from "./lock.js"
import { isMenuOpen } from "./menu.js"
import { isEmpty, markRun, rangeOf, runAt, runOf, runOver, unmark } from "./place.js"
import { holdsText, lengthOf } from "./tree.js"

const host = document.getElementById("document")
const caret = document.getElementById("caret")

// The chosen run, and the element that was chosen by its tag; the ends of the selection that the run was taken from, which
// is gone where a field has the focus; and the place where the caret stands while nothing is chosen.
let run = null
let element = null
let ends = null
let idle = null
let byTouch = false
// What is chosen, or the caret's place, as it follows what becomes of the document; and how often a user chose another.
let marks = null
let times = 0
// Where the caret stood before an element was chosen by its tag.
let before = null

export const chosen = () => ({ run, element })
// Where text is typed: the caret's place, or what it takes the place of.
export const caretPlace = () => run ?? idle
// Whether a finger was used last.
export const setTouch = (is) => (byTouch = is)
export const isByTouch = () => byTouch
// How often something else was chosen: what is typed goes on where it was as long as this stays.
export const timesChosen = () => times

export function choose(newRun, newElement = null) {
  times += 1
  mark(element, false)
  run = newRun
  element = newElement
  ends = idle = null
  keep(run)
  mark(element, true)
  CSS.highlights?.delete("chosen")
  const range = run && !element && !isEmpty(run) ? rangeOf(run, app.view) : null
  if (range) CSS.highlights?.set("chosen", new Highlight(range))
  if (run && !element) mirror(run)
  showCaret()
}

function keep(place) {
  unmark(app.tree, marks)
  marks = place ? markRun(app.tree, place) : null
}

// Chooses for what the program did: what is typed goes on.
function quietly(call) {
  const before = times
  call()
  times = before
}

// Chooses the place where the caret stands.
export const chooseCaret = () => !run && idle && choose(idle)

// Nothing is chosen any more, and the caret stands there.
export function leaveAt(place) {
  choose(null)
  idle = place && { ...place, from: place.to }
  keep(idle)
  showCaret()
}

function mark(node, on) {
  const box = node && (node.owner === null ? host : app.view.box(node))
  box?.classList.toggle("chosen", on)
  if (on && box && box !== host) host.setAttribute("aria-activedescendant", box.id)
  else host.removeAttribute("aria-activedescendant")
  if (box && box !== host) box.ariaSelected = String(on)
}

// Takes over what is selected in the page.
export function takeSelection() {
  const selection = getSelection()
  if (selection.rangeCount === 0) return choose(null)
  const { anchorNode, anchorOffset, focusNode, focusOffset } = selection
  choose(runOf(selection.getRangeAt(0), app.tree, host))
  ends = [anchorNode, anchorOffset, focusNode, focusOffset]
}

// Gives the document the focus: its field, where text may be typed. That brings up a phone's keyboard, so a finger has to
// have asked for it by `toType`.
export function rest(toType = false) {
  if (isHeld()) return
  const isWanted = !isLocked() && (toType || !byTouch || document.activeElement === field)
  if (!caretPlace() || element || !isWanted) return host.focus({ preventScroll: true })
  mirror(caretPlace())
  enterField()
}

// Selects in the page again what is chosen, or the caret's place.
export function selectAgain() {
  const place = element ? { owner: element.owner, from: [element, 0], to: [element, 0] } : caretPlace()
  if ((document.activeElement === host && host.contains(getSelection().anchorNode)) || !place) return
  const kept = ends
  if (kept && host.contains(kept[0]) && host.contains(kept[2])) return getSelection().setBaseAndExtent(...kept)
  select(place)
  const [kid] = place.from
  if (kid?.kind !== "text") getSelection().collapse(app.view.box(kid ?? place.owner) ?? host, 0)
}

export function chooseElement(node) {
  const place = element ? null : caretPlace()
  if (place || !element) {
    unmark(app.tree, before)
    before = place && markRun(app.tree, { ...place, from: place.to })
  }
  getSelection().removeAllRanges()
  choose(runOver(node), node)
}

// Where the caret stands in this element, or stood before its tag was clicked on; none where it was elsewhere.
export function caretIn(node) {
  const place = element ? before && runAt(app.tree, before) : caretPlace()
  for (let at = place?.owner; at; at = at.owner) if (at === node) return { ...place, from: place.to }
  return null
}

// The place in an element that holds nothing.
export function choosePlaceIn(node) {
  getSelection().removeAllRanges()
  choose({ owner: node, from: [null, 0], to: [null, 0] })
}

// The place before a unit of a kid, or at a list's end.
export function choosePlace(owner, kid, unit) {
  const at = { owner, from: [kid, unit], to: [kid, unit] }
  app.view.reveal(kid ?? owner)
  if (document.activeElement !== field) {
    if (kid?.kind === "text") select(at)
    else getSelection().removeAllRanges()
  }
  choose(at)
}

// Selects a run in the page.
export function select(at) {
  app.view.reveal(at.from[0] ?? at.owner)
  const range = rangeOf(at, app.view)
  if (!range) return
  getSelection().setBaseAndExtent(range.startContainer, range.startOffset, range.endContainer, range.endOffset)
}

// The box that a menu for what is chosen stands at.
export function boxOfChosen() {
  if (element) return (app.view.box(element)?.querySelector(".tag") ?? host).getBoundingClientRect()
  if (run && isEmpty(run)) return boxOfPlace(run) ?? host.getBoundingClientRect()
  const range = run && rangeOf(run, app.view)
  const boxes = range ? [...range.getClientRects()] : []
  return boxes.at(-1) ?? range?.getBoundingClientRect() ?? host.getBoundingClientRect()
}

// The box round all of what is chosen, as far as it is in sight.
export function boxRoundChosen() {
  const range = run && !element && !isEmpty(run) && rangeOf(run, app.view)
  const boxes = range ? [...range.getClientRects()] : []
  if (boxes.length === 0) return boxOfChosen()
  const sight = host.getBoundingClientRect()
  const most = (side, ends) => Math.max(sight.top, Math.min(sight.bottom, side(...ends)))
  const top = most(Math.min, boxes.map((box) => box.top))
  const bottom = most(Math.max, boxes.map((box) => box.bottom))
  const left = Math.min(...boxes.map((box) => box.left))
  const right = Math.max(...boxes.map((box) => box.right))
  return { top, bottom, left, right, height: bottom - top }
}

// Where a caret stands at a place of a list; none where it isn't drawn.
function boxOfPlace({ owner, from: [kid, unit], to }) {
  if (kid === null) return boxIn(owner)
  const range = rangeOf({ from: [kid, unit], to }, app.view)
  if (kid.kind === "text") return range?.getClientRects()[0]
  const box = app.view.box(kid)?.getClientRects()
  if (!box?.length) return null
  const { top, bottom, left, right } = unit ? box[box.length - 1] : box[0]
  const height = Math.min(bottom - top, 28)
  return { top: unit ? bottom - height : top, bottom, left: unit ? right : left, right, height }
}

// Where a caret stands in an element that holds nothing, or after all that it holds.
function boxIn(node) {
  const box = app.view.box(node)
  const first = (...all) => all.map((each) => box?.querySelector(each)).find(Boolean)
  const place = first(":scope > .list", ":scope > .slot", ".tag.only", ":scope > .tag.end")
  if (!place) return null
  const { top, bottom, left, right } = place.getBoundingClientRect()
  const isTag = place.classList.contains("only")
  const height = Math.min(bottom - top, 28)
  return { top: place.children.length ? bottom - height : top, bottom, left: isTag ? right : left, right, height }
}

// The page's own caret, since what can't be edited has none.
export function showCaret() {
  const selection = getSelection()
  const range = selection.rangeCount && selection.isCollapsed ? selection.getRangeAt(0) : null
  const inText = range && host.contains(range.startContainer) ? range.getClientRects()[0] : null
  const place = caretPlace()
  const inside = place && !element && isEmpty(place) ? boxOfPlace(place) : null
  const box = isIn(host) ? inside ?? inText : null
  caret.hidden = !box
  if (box) Object.assign(caret.style, { top: `${box.top}px`, left: `${box.left}px`, height: `${box.height}px` })
  standAt(box)
}

// Scrolls so that this box is in sight, a third from the top where it wasn't.
export function scrollTo({ top, bottom, height }) {
  const sight = host.getBoundingClientRect()
  if (height && (top < sight.top || bottom > sight.bottom)) host.scrollTop += top - (sight.top + sight.height / 3)
}

// Scrolls so that a node's tag stands a third from the top: what is said at it is in sight then, however tall it is.
export function bringUp(node) {
  const up = () => {
    const box = app.view.reveal(node)
    const sight = host.getBoundingClientRect()
    const { top } = (box.querySelector(":scope > .tag") ?? box).getBoundingClientRect()
    host.scrollTop = box === host ? 0 : host.scrollTop + top - (sight.top + sight.height / 3)
  }
  up()
  // What came into sight by that may have another height than was guessed.
  requestAnimationFrame(up)
}

// Shows what was made, and goes on after its text; in it, where it is to be filled, and after it where nothing can be.
export function flash(node, isStart = false) {
  const last = isStart ? firstText(node) : lastText(node)
  if (last) leaveAt({ owner: last.owner, to: [last, isStart ? 0 : lengthOf(last)] })
  else if (node.kind === "element" && node.kids.length === 0) {
    const isEmpty = empties.has(node.name) && node.owner?.id
    leaveAt(isEmpty ? { owner: node.owner, to: [node, 1] } : { owner: node, to: [null, 0] })
  }
  const box = app.view.box(node)
  box?.classList.add("made")
  setTimeout(() => box?.classList.remove("made"), 1200)
}

// The last text in a node that is shown, or the first.
const lastText = (node) => textAmong(node, (kids) => kids.toReversed())
const firstText = (node) => textAmong(node, (kids) => kids)
function textAmong(node, ordered) {
  if (node.kind === "text") return holdsText(node.owner) ? node : null
  for (const kid of ordered(node.kids ?? [])) {
    const found = textAmong(kid, ordered)
    if (found) return found
  }
  return null
}

// The caret's place after what was typed; it is shown there, but where a user chose another one meanwhile.
export function goOnAt(place, isCurrent) {
  if (!isCurrent) return
  const { owner, to: [kid, unit] } = place
  quietly(() => choosePlace(owner, kid, unit))
  if (isIn(host)) rest()
  showCaret()
  scrollTo(caret.getBoundingClientRect())
}

// After a change what is chosen stays so, and the caret stays, or stands where something was changed. An element stays
// chosen that a menu is open for.
listeners.push((changed) => {
  if (!changed) return
  const place = marks && runAt(app.tree, marks)
  const there = element && place && app.tree.nodes.get(element.id)
  quietly(() => {
    if (run && !element && place) choose(place)
    else if (isMenuOpen() && there) choose(runOver(there), there)
    else leaveAt(place ?? (app.changed && { ...app.changed, from: app.changed.to }))
  })
  setTimeout(() => caretPlace() && mirror(caretPlace()))
})
