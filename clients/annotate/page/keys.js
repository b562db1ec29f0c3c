// What the mouse, a finger and the keyboard do in the document.
import { app, setHeld } from "./app.js"
import {
  caretPlace, chooseCaret, chooseElement, choosePlaceIn, chosen, leaveAt, rest, scrollTo, selectAgain, setTouch, showCaret, takeSelection,
} from "./choose.js"
import { field, isIn } from "./field.js"
import { onLocked, setLocked } from "./lock.js"
import { closeMenu, isMenuOpen, stand } from "./menu.js"
import { askToDelete, extendTo, openFor } from "./offers.js"
import { takeKey } from "./palette.js"
import { isEmpty, rangeOf } from "./place.js"
import { erase, type } from "./type.js"

const host = document.getElementById("document")

// The mouse: a selection opens its menu, a tag that of its element. All of it is done when the button goes up, before a
// key can come.
let isPressed = false
let isTouch = false
addEventListener("pointerdown", (event) => setTouch((isTouch = event.pointerType === "touch")), true)
host.addEventListener("mousedown", (event) => {
  if (event.target.closest("#reason") || isOnScrollbar(event)) return
  if (event.shiftKey) selectAgain()
  // What is selected is let go here: by itself a browser does so after the button, where a click is inside it.
  else if (event.button === 0) getSelection().removeAllRanges()
  setHeld((isPressed = event.button === 0))
  closeMenu()
})
document.addEventListener("mouseup", (event) => {
  if (!isPressed) return
  setHeld((isPressed = false))
  const tag = event.target.closest?.("#document .tag")
  const node = tag && app.tree.nodes.get(Number(tag.dataset.tag))
  if (node && getSelection().isCollapsed) {
    if (event.shiftKey && chosen().run) return extendTo(node)
    chooseElement(node)
    return void openFor()
  }
  const empty = event.target.closest?.("#document .list.nothing:not(.void), #document .slot")?.closest("[data-id]")
  if (empty && getSelection().isCollapsed) {
    choosePlaceIn(app.tree.nodes.get(Number(empty.dataset.id)))
    return rest(true)
  }
  if (getSelection().rangeCount === 0) putCaretAt(event)
  takeSelection()
  if (!getSelection().isCollapsed) openFor()
  else if (isIn(host)) rest(true)
})

// A scrollbar has the button go down, and not up.
function isOnScrollbar({ target, clientX, clientY }) {
  const { left, top } = host.getBoundingClientRect()
  return target === host && (clientX >= left + host.clientWidth || clientY >= top + host.clientHeight)
}
// A button that went up where nothing heard of it isn't held any more.
addEventListener("pointermove", ({ buttons }) => {
  if (isPressed && buttons === 0) setHeld((isPressed = false))
}, true)

// Where a browser has put no caret.
function putCaretAt({ clientX, clientY }) {
  const at = document.caretPositionFromPoint?.(clientX, clientY)
  if (at && host.contains(at.offsetNode)) getSelection().collapse(at.offsetNode, at.offset)
}
host.addEventListener("contextmenu", (event) => {
  if (event.shiftKey || isTouch) return
  event.preventDefault()
  const tag = event.target.closest(".tag")
  if (tag) chooseElement(app.tree.nodes.get(Number(tag.dataset.tag)))
  else if (getSelection().isCollapsed && !isChosenAt(event)) {
    putCaretAt(event)
    takeSelection()
  }
  openFor()
})
// The key for it, where the field has the focus.
field.addEventListener("contextmenu", (event) => {
  event.preventDefault()
  chooseCaret()
  openFor()
})

// Whether the text there is chosen.
function isChosenAt({ clientX, clientY }) {
  const { run, element } = chosen()
  const range = run && !element && !isEmpty(run) ? rangeOf(run, app.view) : null
  const isIn = ({ left, right, top, bottom }) => left <= clientX && clientX <= right && top <= clientY && clientY <= bottom
  return range !== null && [...range.getClientRects()].some(isIn)
}

// A finger selects by the browser's own handles; the menu comes when they rest.
let resting = 0
document.addEventListener("selectionchange", () => {
  showCaret()
  clearTimeout(resting)
  if (!isTouch || getSelection().isCollapsed || !host.contains(getSelection().anchorNode)) return
  resting = setTimeout(() => {
    takeSelection()
    openFor()
  }, 400)
})
for (const each of [host, field]) {
  each.addEventListener("focus", showCaret)
  each.addEventListener("blur", showCaret)
}
host.addEventListener("scroll", follow)
addEventListener("resize", () => {
  follow()
  // A phone's keyboard that comes up takes half of the window.
  if (document.activeElement === field) scrollTo(document.getElementById("caret").getBoundingClientRect())
})
function follow() {
  stand()
  showCaret()
}

// The keyboard.
const BACKWARD = ["ArrowLeft", "ArrowUp", "Home"]
const FORWARD = ["ArrowRight", "ArrowDown", "End"]
const ARROWS = Object.fromEntries([...BACKWARD.map((key) => [key, "backward"]), ...FORWARD.map((key) => [key, "forward"])])
const PAGES = { PageUp: -0.9, PageDown: 0.9 }
const STEPS = { ArrowUp: "line", ArrowDown: "line", Home: "lineboundary", End: "lineboundary" }

export const toStart = () => getSelection().collapse(host.querySelector(".text")?.firstChild ?? host, 0)

function selectAll() {
  getSelection().selectAllChildren(host)
  takeSelection()
  rest()
}

// The field has the focus again when the arrow keys rest: while they move, the browser knows the column to keep to.
const REST = 250
let arrows = 0
function restSoon() {
  clearTimeout(arrows)
  arrows = setTimeout(() => document.activeElement === host && rest(), REST)
}

const keepInSight = () => scrollTo(getSelection().getRangeAt(0).getBoundingClientRect())

function moveInText(event) {
  const selection = getSelection()
  selectAgain()
  if (selection.rangeCount === 0 || !host.contains(selection.anchorNode)) toStart()
  host.focus({ preventScroll: true })
  const step = STEPS[event.key] ?? (event.ctrlKey ? "word" : "character")
  selection.modify(event.shiftKey ? "extend" : "move", ARROWS[event.key], step)
  takeSelection()
  keepInSight()
  restSoon()
}

// To the first or the last text of the document, which may have to be drawn first.
function moveToEnd(event) {
  const texts = [...app.tree.all(app.tree.root)].filter((node) => node.kind === "text" && node.text.trim())
  const isEnd = event.key === "End"
  const node = isEnd ? texts.at(-1) : texts[0]
  if (!node) return
  app.view.reveal(node)
  host.scrollTop = isEnd ? host.scrollHeight : 0
  const pieces = [...host.querySelectorAll(`.text[data-id="${node.id}"]`)]
  const piece = isEnd ? pieces.at(-1) : pieces[0]
  if (!piece) return
  const selection = getSelection()
  selectAgain()
  host.focus({ preventScroll: true })
  const offset = isEnd ? piece.childNodes.length : 0
  if (event.shiftKey && selection.rangeCount) selection.extend(piece, offset)
  else selection.collapse(piece, offset)
  takeSelection()
  keepInSight()
  restSoon()
}

function moveInTree(event) {
  const { run, element } = chosen()
  const here = element ?? run?.owner ?? (app.view.box(app.where ?? app.tree.top) ? app.where : app.tree.root)
  const kids = (here.owner?.kids ?? []).filter((kid) => kid.kind === "element")
  const to = {
    ArrowUp: element ? here.owner : here,
    ArrowDown: here.kids?.find((kid) => kid.kind === "element"),
    ArrowLeft: kids[kids.indexOf(here) - 1],
    ArrowRight: kids[kids.indexOf(here) + 1],
  }[event.key]
  if (!to || to.id === 0) return
  app.view.reveal(to).scrollIntoView({ block: "nearest" })
  chooseElement(to)
  rest()
}

// Enter opens the menu of what is chosen; where the caret stands in a text, its menu offers to split what it is in. With
// Shift it breaks the line.
function enter(event) {
  if (event.shiftKey) return type("\n")
  chooseCaret()
  openFor(!event.ctrlKey && !event.metaKey)
}

// Takes away a character, or what is selected; an element that was chosen by its tag with all that it holds, when that was
// asked.
function remove(step) {
  const { element } = chosen()
  if (element) askToDelete(element)
  else erase(step)
}

const isCharacter = ({ key, ctrlKey, metaKey, altKey }) => [...key].length === 1 && !metaKey && (ctrlKey === altKey)

// What is typed in the field goes by what then stands in it; so does what an input method has in hand.
function pressed(event) {
  if (event.target !== event.currentTarget || event.isComposing || event.keyCode === 229) return
  const isInField = event.target === field
  const command = event.ctrlKey || event.metaKey
  if (event.key === "Enter") enter(event)
  else if (event.key === "Escape" && !isMenuOpen()) {
    leaveAt(caretPlace())
    return rest()
  }
  else if (event.key === "a" && command) selectAll()
  else if (event.key in ARROWS && event.altKey) moveInTree(event)
  else if ((event.key === "Home" || event.key === "End") && command) moveToEnd(event)
  else if (event.key in ARROWS) moveInText(event)
  else if (event.key in PAGES && isInField) host.scrollBy(0, PAGES[event.key] * host.clientHeight)
  else if (event.key === "Backspace" && !(isInField && command)) remove(-1)
  else if (event.key === "Delete" && !(isInField && command)) remove(1)
  else if (takeKey(event)) return event.preventDefault()
  else if (!isInField && isCharacter(event)) type(event.key)
  else return
  event.preventDefault()
}
for (const each of [host, field]) each.addEventListener("keydown", pressed)


onLocked(() => app.tree && rest())
setLocked(true)
