// The page: its head, and what its buttons do.
import { tagAgain, tagEverywhere } from "./again.js"
import { app, catchUp, change, listeners, question, tell } from "./app.js"
import { ask, Gone, hello, sayBye } from "./ask.js"
import { closedBecause, goOnward, setDrawer } from "./onward.js"
import { showComments, toggleFlag } from "./comments.js"
import { comments, empties, entities, setHues } from "./draw.js"
import { rest, setTouch, takeSelection } from "./choose.js"
import { openFinder } from "./find.js"
import { closeMenu, isMenuOpen } from "./menu.js"
import { goToNext, showMissing } from "./next.js"
import { setPalette, showPalette, takeKey } from "./palette.js"
import { save, showElements, showHistory, showPreview } from "./panels.js"
import { forget, isSaying } from "./refusal.js"
import { openSuggestions, showSuggestions, tagAll } from "./suggest.js"
import { attributesSentence, attributesValid, countWrong, onWrong } from "./wrong.js"
import "./type.js"
import { toStart } from "./keys.js"
import { showSource } from "./source.js"
import { goBack, keepView } from "./view.js"

const host = document.getElementById("document")
const button = (id) => document.getElementById(id)
const counted = (count, one) => `${count} ${one}${count === 1 ? "" : "s"}`

// The head: how many elements are missing, what can't be finished, what can be undone.
let isOpen = false
function showState(changed) {
  const { open, bad, made, undone, saved } = app.state
  showNext(null)
  showVerdict()
  button("undo").disabled = made === 0
  button("redo").disabled = undone === 0
  button("save").disabled = saved
  button("save").textContent = saved ? "Saved" : "Save"
  if (changed && isOpen) showKept()
  isOpen = true
  countMissing()
}

// When the last move was put on the disk.
function showKept() {
  const time = new Date().toLocaleTimeString("en-GB", { hour: "2-digit", minute: "2-digit" })
  button("kept").textContent = `kept ${time}`
  button("save").title = `Write the document to its file (Ctrl+S). The last move was kept beside it at ${time}`
}

// Green only where elements and attributes are valid.
function showVerdict() {
  const { open, bad } = app.state
  button("next").disabled = open + bad + countWrong() === 0
  button("next").dataset.verdict = bad ? "impossible" : open || !attributesValid() ? "possible" : "valid"
}

// What was counted last, so that it stays where attributes are told later.
let lastNeed = null

function showNext(need) {
  lastNeed = need
  const { open, bad } = app.state
  const parts = []
  if (bad) parts.push(`${counted(bad, "place")} can't be finished`)
  if (need !== null && open) parts.push(`${need} missing`)
  else if (open) parts.push(`${counted(open, "place")} not finished`)
  const elements = parts.join(", ") || (attributesValid() ? "Valid" : "Elements valid")
  button("next").textContent = attributesValid() ? elements : `${elements} · ${attributesSentence()}`
  button("next").title = `Elements: proved. Attributes: ${attributesSentence()}, by libxml2. Go to the next place that isn't finished (F8)`
}

// Asked for after the last move: a moment after it, since it may take long, but at once where it took next to nothing;
// where it did take long, only when it is wanted.
let asking = 0
let pause = 250
let isSlow = false
function countMissing() {
  clearTimeout(asking)
  button("missing").replaceChildren()
  if (app.state.open === 0 || app.state.bad > 0) return
  if (!isSlow) return void (asking = setTimeout(count, pause))
  const wanted = document.createElement("button")
  wanted.textContent = "how many are missing?"
  wanted.addEventListener("click", count)
  button("missing").replaceChildren(wanted)
}

async function count() {
  const started = performance.now()
  const told = await question("need")
  const answer = told?.no === "wide" ? await countWide(told) : told
  const took = performance.now() - started
  isSlow = took > 2000
  pause = took < 50 ? 0 : 250
  if (answer?.version !== app.state.version || app.state.open === 0) return
  const need = neededOf(answer)
  if (need !== null) showNext(need)
  button("missing").textContent = need !== null ? `in ${counted(app.state.open, "place")}` : whyUncounted(answer)
}

// Where a list is too wide another program is asked, and no move waits for it; what was told before stays where it tells
// nothing.
async function countWide(told) {
  const answer = await ask("need-wide", { version: told.version })
  return answer.stale || answer.trouble ? null : { ...told, ...answer }
}

// How many elements are missing, in words; none where that isn't told.
function neededOf({ need, least = need, most = need }) {
  if (most === undefined) return null
  return least === most ? counted(most, "element") : `${least} to ${most} elements`
}

function whyUncounted({ no, list }) {
  if (no === "heavy") return "more than 1,000,000 elements missing"
  if (no === "wide") return `⟨${app.tree.nodes.get(list)?.name ?? "an element"}⟩ holds too much to count what is missing`
  return ""
}

export async function act(name) {
  closeMenu()
  await (name === "save" ? save() : change(name))
  if (app.made) app.view.reveal(app.made).scrollIntoView({ block: "nearest" })
}

function toggleTags() {
  const hidden = host.classList.toggle("bare")
  button("tags").setAttribute("aria-pressed", String(!hidden))
}

function toggleMore(isOpen) {
  button("others").classList.toggle("open", isOpen)
  button("more").setAttribute("aria-expanded", String(button("others").classList.contains("open")))
}

const DO = {
  next: () => goToNext(1), undo: () => act("undo"), redo: () => act("redo"), save: () => act("save"),
  tags: toggleTags, history: showHistory, list: showElements, lacks: showMissing, colours: showPalette, before: showSuggestions, said: showComments, written: showSource, search: openFinder, preview: showPreview, help: () => button("keys").showModal(),
}
for (const [id, call] of Object.entries(DO)) button(id).addEventListener("click", call)
button("more").addEventListener("click", () => toggleMore())
button("others").addEventListener("click", () => toggleMore(false))
// In a narrow window what is wanted often stands with the others too.
const often = ["lacks", "search", "preview"].map(button)
const isNarrow = matchMedia("(max-width: 900px)")
const standOften = () => (isNarrow.matches ? button("others").prepend(...often) : button("more").before(...often))
const ofDrawer = ["done", "onward"].map(button)
const isPhone = matchMedia("(max-width: 600px)")
const standOfDrawer = () => (isPhone.matches ? button("others").append(...ofDrawer) : button("save").after(...ofDrawer))
for (const [query, call] of [[isNarrow, standOften], [isPhone, standOfDrawer]]) {
  query.addEventListener("change", call)
  call()
}
for (const dialog of document.querySelectorAll("dialog")) {
  const close = dialog.querySelector("button.close")
  if (!close.form) close.addEventListener("click", () => dialog.close())
}

// The keyboard, wherever the focus is.
document.addEventListener("keydown", (event) => {
  const key = event.key.toLowerCase()
  const command = event.ctrlKey || event.metaKey
  if (event.isComposing || document.querySelector("dialog[open]")) return
  if (key === "f2") toggleFlag()
  else if (key === "f7" && event.shiftKey) tagAll()
  else if (key === "f7") openSuggestions()
  else if (key === "f9" && goOnward(event.shiftKey)) closeMenu()
  else if (key === "f8") goToNext(event.shiftKey ? -1 : 1)
  else if (key === "f4" && event.shiftKey) tagEverywhere()
  else if (key === "f4") tagAgain()
  else if (key === "f1") DO.help()
  else if (command && key === "s") act("save")
  else if (command && key === "f") openFinder()
  else if (command && (key === "y" || (key === "z" && event.shiftKey))) act("redo")
  else if (command && key === "z") act("undo")
  else if (event.altKey && takeKey(event)) closeMenu()
  else if (key === "escape" && isMenuOpen()) closeMenu()
  else if (key === "escape" && isSaying()) forget()
  else return
  event.preventDefault()
})

// A document that another program has changed is told once, when somebody looks at it again.
let isTold = false
addEventListener("focus", async () => {
  if (!app.state) return
  const { changed } = await ask("outside").catch(() => ({}))
  if (changed && !isTold) tell(OUTSIDE)
  isTold = Boolean(changed)
})
const OUTSIDE = "The file was changed by another program since it was opened. Save doesn't write over it, and asks for another name; begun anew with --again, annotate makes the moves on it as it is now."
addEventListener("beforeprint", () => app.view.fillAll())
addEventListener("afterprint", () => app.view.letGo())
addEventListener("beforeunload", (event) => !app.state?.saved && event.preventDefault())
addEventListener("pagehide", sayBye)
addEventListener("pageshow", (event) => event.persisted && hello().then(catchUp))
addEventListener("unhandledrejection", (event) => {
  if (event.reason instanceof Gone) event.preventDefault()
  else tell(event.reason?.message ?? String(event.reason))
})

listeners.push(showState)
onWrong(() => {
  showVerdict()
  showNext(lastNeed)
})
const opened = await hello()
if (opened.trouble) await closedBecause(opened)
const { title, names, empty, note, entities: known, comments: told, drawer } = opened
if (drawer) setDrawer(drawer)
button("title").textContent = document.title = title
app.names = new Set(names)
setHues(names)
for (const name of empty) empties.add(name)
for (const [form, name] of Object.entries(known)) entities.set(form, name)
for (const [name, text] of Object.entries(told)) comments.set(name, text)
if (note) tell(note)
await catchUp()
if (opened.view) goBack(opened.view)
keepView()
question("palette").then((answer) => answer?.palette.length && setPalette(answer.palette))
if (!opened.view?.caret) {
  toStart()
  takeSelection()
}
setTouch(matchMedia("(pointer: coarse)").matches)
rest()
