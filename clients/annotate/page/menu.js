// The menu: choices that are filtered by typing, Enter takes one. A choice has a label and `take`, which is given the
// label; it may have a note, and a group, whose name stands above its choices where nothing is typed.
import { comments, worded } from "./draw.js"
import { pairsOf, pairsText } from "./pairs.js"

const box = document.getElementById("menu")
const [title, about, input, list, each, all, refusal] = box.children
const isEach = each.querySelector("input")
const isNarrow = matchMedia("(max-width: 600px)")

let open = null
let shown = []
let at = 0
// The label that was chosen by an arrow key: it stays chosen when choices come in.
let wanted = null
// What stood in the rows before choices came in, and when that was: for a moment a row is taken only for what was seen
// there.
const MOMENT = 250
let seen = { labels: [], at: 0, time: -Infinity }
// So many rows are taken by a digit.
const DIGITS = 9

// A menu opens at once, also while its choices are asked for: then it shows an ellipsis, and holds Enter until they come.
// With `keepFocus` the menu's field doesn't take the focus: with a finger that would bring the keyboard over the page.
// Opens at a box of the page, which `box` gives, beside all that is chosen, which `around` gives. `typed`, where it is there,
// takes a name that isn't among the choices; `names` are those that are declared; `hint` stands where there is no choice,
// `about` above them all. `inSight` is called where other choices come into sight. `each`, where it is there, takes a name
// for each line or paragraph, by Alt+Enter, and `everywhere` one for all places of the text, by Shift+Enter. All of them take
// the attributes too that were typed after a name, where there is `typed`; `known` gives those that a name had before.
export function openMenu({ closed, keepFocus = false, ...menu }) {
  const before = open
  open = { closed, names: new Set(), entered: null, ...menu }
  if (before?.closed && before.closed !== closed) before.closed()
  title.textContent = open.name
  tellAbout(open.about)
  input.value = ""
  each.hidden = !open.each
  all.hidden = !open.everywhere
  isEach.checked = false
  wanted = null
  seen.time = -Infinity
  refuse(null)
  box.hidden = false
  tellWaiting()
  filter()
  stand()
  lift()
  if (!keepFocus) input.focus({ preventScroll: true })
}

// Other choices, in the menu as it stands; with `about` what is chosen stays so, wherever it stands then.
export function setChoices(choices, about = null) {
  if (!open) return
  open.choices = choices
  // What comes where nothing was seen hasn't moved.
  const time = open.isWaiting && shown.length === 0 ? -Infinity : performance.now()
  seen = { labels: shown.map(({ label }) => label), at, time }
  open.isWaiting = false
  tellWaiting()
  if (about !== null) {
    wanted ??= shown[at] ? keyOf(shown[at]) : null
    tellAbout(about)
  }
  const top = list.scrollTop
  filter()
  stand()
  lift()
  // What was scrolled to stays in sight, but for a row that an arrow key chose.
  list.scrollTop = top
  if (wanted !== null) document.getElementById(`choice${at}`)?.scrollIntoView({ block: "nearest" })
  if (open.entered !== null) takeHeld()
}

// The choices are asked for anew: those that are shown stay, and Enter is held.
export function waitAgain() {
  if (!open) return
  open.isWaiting = true
  tellWaiting()
  filter()
}

function tellWaiting() {
  box.ariaBusy = String(Boolean(open.isWaiting))
}

// What Enter was pressed for before there were choices.
function takeHeld() {
  const { label, on } = open.entered
  open.entered = null
  const choice = ranked(label)[0]
  if (choice) carryOut(choice, on)
}

// What is no name of an element, as a row that extends one, has nothing to do with each line, or with all places.
function carryOut(choice, on) {
  const { pairs: typed, text } = typedIn(input.value)
  const pairs = choice.pairs ?? typed
  if (pairs === null) return refuse(`Attributes are written as key=adams or key="Mr Adams", and not as ${text}.`)
  const take = choice.isOther ? choice.take : { each: open.each, everywhere: open.everywhere }[on] ?? choice.take
  take(choice.label, pairs)
}

// What is typed: a name, and where it stands for one, the attributes after it; none where they can't be read.
function typedIn(value) {
  const [, name, text] = open.typed === undefined ? [null, value.trim(), ""] : /^(\S*)\s*(.*)$/s.exec(value.trim())
  return { name, text, pairs: text ? pairsOf(text) : [] }
}

// What stands where there is no choice.
export function hint(text) {
  if (open) open.hint = text
}

// There is nothing to choose any more, and why; what was typed stays.
export function shut(why) {
  if (!open) return
  Object.assign(open, { choices: [], typed: null, hint: " ", isWaiting: false, entered: null })
  tellWaiting()
  filter()
  refuse(why)
}

// The labels of the choices in sight.
export function rowsInSight() {
  const { top, bottom } = list.getBoundingClientRect()
  const isSeen = (item) => item.getBoundingClientRect().bottom > top && item.getBoundingClientRect().top < bottom
  return [...list.querySelectorAll("[role=option]")].filter(isSeen).map(({ dataset }) => shown[dataset.number].label)
}

function tellAbout(text) {
  about.hidden = !text
  about.replaceChildren(...worded(text ?? ""))
}

export function closeMenu() {
  if (!open) return
  const { closed } = open
  open = null
  box.hidden = true
  closed?.()
}

export const isMenuOpen = () => open !== null

// Why nothing came of a choice: a sentence, or its parts.
export function refuse(why) {
  refusal.hidden = why === null
  refusal.replaceChildren(...(typeof why === "string" ? worded(why) : why ?? []))
  if (open) stand()
}

// Below what is chosen, or above it, or beside it; where there is no room for that, less high. It covers what is chosen only
// where that fills the window. In a narrow window the style sheet says where.
export function stand() {
  if (!open || isNarrow.matches) return
  box.style.maxHeight = ""
  const all = (open.around ?? open.box)()
  const { width, height } = box.getBoundingClientRect()
  const [above, below] = [all.top - 2 * GAP, innerHeight - all.bottom - 2 * GAP]
  let top = all.bottom + GAP
  let left = Math.max(GAP, Math.min(open.box().left, innerWidth - width - GAP))
  if (below < height && above >= height) top = all.top - GAP - height
  else if (below < height) {
    const right = all.right + GAP + width <= innerWidth - GAP
    const isBeside = right || all.left - GAP - width >= GAP
    const room = Math.max(above, below)
    top = Math.max(GAP, innerHeight - height - GAP)
    if (isBeside) left = right ? all.right + GAP : all.left - GAP - width
    else if (room >= LOW) {
      box.style.maxHeight = `${room}px`
      top = below >= above ? all.bottom + GAP : all.top - GAP - Math.min(height, room)
    } else left = innerWidth - width - GAP
  }
  box.style.top = `${top}px`
  box.style.left = `${left}px`
}
// The gap between the menu and what is chosen, and the lowest that a menu is made, in pixels.
const GAP = 6
const LOW = 170

// In a narrow window the document goes up, as far as the menu at the foot would cover what is chosen.
function lift() {
  if (!open?.around || !isNarrow.matches) return
  const { top, bottom } = open.around()
  const host = document.getElementById("document")
  const over = bottom + GAP - box.getBoundingClientRect().top
  if (over > 0) host.scrollTop += Math.min(over, Math.max(0, top - host.getBoundingClientRect().top - GAP))
}

// What is declared and typed whole comes first, offered or not; then what begins so, and what holds it. A name that
// isn't declared comes last.
function ranked(text) {
  if (!text) return open.choices
  const small = text.toLowerCase()
  const others = open.choices.filter(({ label }) => label !== text && label.toLowerCase().includes(small))
  const begins = ({ label }) => label.toLowerCase().startsWith(small)
  const rest = [...others.filter(begins), ...others.filter((choice) => !begins(choice))]
  const whole = open.choices.filter(({ label }) => label === text)
  if (whole.length > 0 || !open.typed) return [...whole, ...rest]
  const isDeclared = open.names.has(text)
  const note = isDeclared ? "isn't offered; Enter shows why" : "the DTD has no such element"
  const typed = { label: text, take: open.typed, isTyped: true, note }
  return isDeclared ? [typed, ...rest] : [...rest, typed]
}

// A row is told from others by its name, and by its own attributes.
const keyOf = ({ label, pairs }) => (pairs ? `${label} ${pairsText(pairs)}` : label)

function filter() {
  const { name: text, pairs, text: attributes } = typedIn(input.value)
  shown = open.isWaiting && open.choices.length === 0 ? [] : ranked(text)
  if (/^\s*\S+\s/.test(input.value) && shown.length) shown = withKnown(shown, attributes)
  const kept = shown.findIndex((choice) => keyOf(choice) === wanted)
  at = Math.max(0, kept)
  const items = shown.map((choice, number) => itemOf(choice, number, pairs?.length ? pairsText(pairs) : attributes))
  list.replaceChildren(...(text ? items : grouped(items)))
  if (items.length === 0) list.append(line("li", "hint", open.isWaiting ? "…" : open.hint ?? "nothing that begins so"))
  show()
  open.inSight?.()
}

// The first row, also with the attributes that are known for it and begin as those that are typed do; then the others.
function withKnown([first, ...others], attributes) {
  const { known } = open
  const { label } = first
  if (!known || first.isOther) return [first, ...others]
  if (open.knownOf !== label) {
    const menu = open
    Object.assign(open, { knownOf: label, knownTags: [] })
    known(label).then((tags) => {
      if (open !== menu || open.knownOf !== label || tags.length === 0) return
      open.knownTags = tags
      filter()
    })
  }
  const fits = open.knownTags.filter((pairs) => pairsText(pairs).startsWith(attributes) || pairsText(pairs).replaceAll('"', "").startsWith(attributes))
  return [first, ...fits.slice(0, DIGITS).map((pairs) => ({ ...first, pairs })), ...others]
}

function itemOf({ label, note, isTyped, isOther, pairs }, number, typed) {
  const attributes = pairs ? pairsText(pairs) : typed
  const item = line("li", isTyped ? "typed" : "", label)
  item.id = `choice${number}`
  item.role = "option"
  item.dataset.number = number
  if (number < DIGITS && input.value === "") item.dataset.digit = item.ariaKeyShortcuts = String(number + 1)
  if (comments.has(label)) item.title = comments.get(label)
  const told = isOther ? note : [attributes, note].filter(Boolean).join(" ")
  if (told) item.append(" ", line("span", "note", told))
  return item
}

// With the names of groups between.
function grouped(items) {
  const rows = []
  for (const [number, item] of items.entries()) {
    const { group } = shown[number]
    if (group && group !== shown[number - 1]?.group) rows.push(line("li", "group", group))
    rows.push(item)
  }
  return rows
}

function line(name, className, text) {
  const made = document.createElement(name)
  made.className = className
  made.textContent = text
  if (name === "li") made.role = "presentation"
  return made
}

function show() {
  for (const item of list.querySelectorAll("[role=option]")) {
    item.ariaSelected = String(Number(item.dataset.number) === at)
  }
  input.setAttribute("aria-activedescendant", shown.length ? `choice${at}` : "")
  const chosen = document.getElementById(`choice${at}`)
  if (at === 0) list.scrollTop = 0
  else chosen?.scrollIntoView({ block: "nearest" })
}

function take(number, before, on = isEach.checked ? "each" : "") {
  const choice = shown[number]
  if (open.isWaiting) return void (open.entered = { label: choice?.label ?? typedIn(input.value).name, on })
  const hasMoved = performance.now() - seen.time < MOMENT && choice?.label !== before
  if (choice && !hasMoved) carryOut(choice, on)
}

// A digit takes a row, where nothing is typed: no name begins with one.
function takeRow(digit) {
  const number = Number(digit) - 1
  if (!open.isWaiting) take(number, seen.labels[number])
}

input.addEventListener("input", () => {
  if (open?.typed !== null) refuse(null)
  wanted = null
  seen.time = -Infinity
  filter()
})
input.addEventListener("keydown", (event) => {
  const step = { ArrowDown: 1, ArrowUp: -1, PageDown: 8, PageUp: -8 }[event.key]
  if (step && shown.length) {
    const isOne = Math.abs(step) === 1
    at = isOne ? (at + step + shown.length) % shown.length : Math.max(0, Math.min(shown.length - 1, at + step))
    wanted = keyOf(shown[at])
    seen.time = -Infinity
    show()
  } else if (event.key === "Enter") event.repeat || take(at, seen.labels[seen.at], event.shiftKey ? "everywhere" : event.altKey || isEach.checked ? "each" : "")
  else if (isDigit(event) && input.value === "") event.repeat || takeRow(event.key)
  else if (event.key === "Escape" || event.key === "Tab") closeMenu()
  else return
  event.preventDefault()
  event.stopPropagation()
})
const isDigit = ({ key, ctrlKey, metaKey, altKey }) => /^[1-9]$/.test(key) && !ctrlKey && !metaKey && !altKey
// The field has the focus again.
isEach.addEventListener("change", () => input.focus({ preventScroll: true }))
list.addEventListener("scroll", () => open?.inSight?.())
list.addEventListener("mousedown", (event) => event.preventDefault())
list.addEventListener("click", (event) => {
  const item = event.target.closest("[role=option]")
  if (item) take(Number(item.dataset.number), seen.labels[item.dataset.number])
})
