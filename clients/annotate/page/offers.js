// The menu for what is chosen: the names that the session offers, by what they cost, or what can be done with an
// element.
import { app, change, listeners, question, tell } from "./app.js"
import { ask } from "./ask.js"
import { boxOfChosen, boxRoundChosen, caretIn, choose, chosen, flash, isByTouch, rest } from "./choose.js"
import { openComment } from "./comments.js"
import { commentOf, empties } from "./draw.js"
import { isLocked, sayLocked } from "./lock.js"
import { openAttributes } from "./attributes.js"
import { openEverywhere } from "./again.js"
import { closeMenu, hint, isMenuOpen, openMenu, refuse, rowsInSight, setChoices, shut, stand, waitAgain } from "./menu.js"
import { isEmpty, markRun, nameOf, plainTextOf, runAt, runOver, singlesIn, textOf, told, unmark } from "./place.js"
import { editPalette } from "./palette.js"
import { hasLines, openPieces } from "./pieces.js"
import { forget, isSaying, say, sentenceOf, showRefused, whyOf, withModel } from "./refusal.js"

// So long what names cost is waited for, in milliseconds.
const SCREENFUL = 120
// So long the names out of sight are counted too: under a large DTD that takes long for some hundred of them.
const ALL = 2000
// Where names stand that aren't counted: after those that are, and before those that can't be.
const UNCOUNTED = 1e9

// What the open menu is for: what it offers, and where; none where no menu is open.
let offer = null

// Opens the menu for what is chosen. It is there, and has the focus, at once: a key that comes then goes to it. Where the
// caret stands in an element, that may be split there; first of all where `splits`.
export function openFor(splits = false) {
  const { run, element } = chosen()
  if (element) return openForElement(element)
  if (!run || run.owner.id === 0) return
  if (!isEmpty(run)) return offerNames(`Tags round ${nameOf(run)}`, { kind: "wrap", run }, { first: extensions })
  const splitting = (place) => splitsAt(place)
  offerNames(`A new element in ⟨${run.owner.name}⟩`, { kind: "insert", run }, splits ? { first: splitting } : { last: splitting })
}

// The elements round a place that may be split there, the innermost first; the root can't be.
function splitsAt(place) {
  const choices = []
  for (let node = place.owner; node.owner?.id; node = node.owner) {
    const one = node
    choices.push({ label: `Split ⟨${node.name}⟩ here`, group: "in two", take: (_, at) => splitAt(one, at) })
  }
  return choices
}

// Splits an element where the place is then, and goes on at the start of its second part.
function splitAt(node, at) {
  const second = (made) => {
    const { kids } = made.owner
    return node.attrs ? kids.slice(kids.indexOf(made) + 1).find(({ kind }) => kind === "element") : made
  }
  return make(() => (app.tree.isThere(node) && at() ? { kind: "split", node: node.id, place: told(at()) } : null), "move", (made) => flash(second(made), true))
}

// The elements that a selection holds or touches, each the only one of its name: they may reach as far as it does, with
// their attributes.
function extensions(run) {
  const extended = (node, at) => (at() && app.tree.isThere(node) ? { kind: "extend", node: node.id, place: told(at()) } : null)
  return singlesIn(run).map((node) => ({
    label: `⟨${node.name}⟩ extended to here`, note: node.attrs ?? "", group: "one that is there", take: (_, at) => make(() => extended(node, at)),
  }))
}

// Takes away an element with all that it holds, or its tags, or makes one of it and the next: asked first.
export function askToDelete(node) {
  const text = textOf(node).trim().replace(/\s+/g, " ")
  const all = { label: "Delete with content", note: text.length > 40 ? `${text.slice(0, 40)}…` : text, take: () => deleteAll(node) }
  begin({ fill: () => (app.tree.isThere(node) ? setChoices([all, ...partsOf(node)]) : shut(GONE)) })
  openMenu({ name: `Remove ⟨${node.name}⟩?`, box: boxOfChosen, around: boxRoundChosen, choices: [all, ...partsOf(node)], closed, keepFocus: isByTouch() })
}

function partsOf(node) {
  return [
    { label: "Join with the next", take: () => make({ kind: "join", node: node.id }) },
    { label: "Unwrap: remove its tags", take: () => make({ kind: "unwrap", node: node.id }) },
  ]
}

function deleteAll(node) {
  if (!isLocked() || textOf(node) === "") return make({ kind: "delete", node: node.id })
  closeMenu()
  sayLocked()
}

// From what is chosen to this element.
export function extendTo(node) {
  choose(runOver(node, chosen().run))
  openFor()
}

function openForElement(node) {
  begin({ fill: () => fillForElement(node, openings) })
  openMenu({ name: `⟨${node.name}⟩`, box: boxOfChosen, around: boxRoundChosen, choices: choicesFor(node), closed, keepFocus: isByTouch() })
  fillForElement(node, openings)
}

function choicesFor(node) {
  const inside = (at) => ({ owner: node, from: at, to: at })
  const beside = (unit) => ({ owner: node.owner, from: [node, unit], to: [node, unit] })
  const name = `⟨${node.name}⟩`
  const insertAt = (label, run) => offerNames(`${label} ${name}`, { kind: "insert", run })
  const insert = (label, end, where) => ({ label: label + end, take: () => insertAt(label, where) })
  const choices = [
    { label: "Rename", take: () => offerNames(`Another name for ${name}`, { kind: "rename", node }) },
    { label: "Wrap", take: () => offerNames(`Tags round ${name}`, { kind: "wrap", run: runOver(node) }) },
    { label: "Unwrap: remove its tags", take: () => make({ kind: "unwrap", node: node.id }) },
    ...(empties.has(node.name) ? [] : [insert("Insert first in", " it", inside([node.kids[0] ?? null, 0]))]),
  ]
  if (node.kids.length > 0) choices.push(insert("Insert last in", " it", inside([null, 0])))
  if (node.owner.id !== 0) choices.push(insert("Insert before", "", beside(0)), insert("Insert after", "", beside(1)))
  const caret = caretIn(node)
  if (caret && node.owner.id !== 0) {
    const marks = markRun(app.tree, caret)
    choices.push({ label: "Split here", note: "where the caret stood", take: () => splitAt(node, () => runAt(app.tree, marks)) })
  }
  if (node.owner.id !== 0) {
    choices.push({ label: "Join with the next", take: () => make({ kind: "join", node: node.id }) })
    choices.push({ label: "Delete with content", take: () => askToDelete(node) })
  }
  choices.push({ label: "Attributes", note: node.attrs ?? "", take: () => openAttributes(node) })
  choices.push({ label: "Comment", note: commentOf(node), take: () => openComment(node) })
  choices.push({ label: "To the palette", take: () => toPalette(node) })
  const text = textOf(node)
  const everywhere = { label: "The same on all places of this text", take: () => openEverywhere(node.name, text, node) }
  if (text.trim()) choices.push(everywhere)
  return choices
}

// A tag of the palette that is as this one is: its key is to be given.
async function toPalette(node) {
  const answer = await question("attributes", { node: node.id })
  closeMenu()
  if (answer) editPalette({ name: node.name, pairs: answer.pairs })
}

// What is missing in the element comes in after its menu, and again where the document was changed meanwhile.
async function fillForElement(node, opened) {
  if (!app.tree.isThere(node)) return shut(GONE)
  const late = await newsOf(node)
  if (!isMenuOpen() || openings !== opened || !app.tree.isThere(node)) return
  setChoices([...late.choices, ...choicesFor(node)], late.about)
}
const GONE = "The place that this menu was opened for isn't there any more: the document was changed. Escape closes it."

// A menu is opened for something else.
function begin(what) {
  if (offer?.marks) unmark(app.tree, offer.marks)
  openings += 1
  offer = what
}

// What is missing in an element's list and can be taken over, or why nothing can mend it.
async function newsOf(node) {
  if (node.verdict === "impossible") return { about: (await whyOf(node))?.why ?? "", choices: [] }
  const answer = node.verdict === "possible" ? await missingIn(node) : null
  if (!answer?.missing?.length) return { about: "", choices: [] }
  const choice = { label: "Take over what is missing", note: namesOf(answer), take: () => takeOver(node) }
  const others = answer.missing.flatMap(({ id, choices = [] }) => choices.slice(1).map((name) => (
    { label: `Take over with ⟨${name}⟩`, take: () => takeOver(node, { [id]: name }) }
  )))
  return { about: missingText(answer), choices: [choice, ...others.slice(0, ALIKE)] }
}
// So many other names of what is missing stand in a menu.
const ALIKE = 8

// What is missing in a list; it may take long, and other requests go on.
export async function missingIn(node) {
  const answer = await ask("missing", { node: node.id })
  return answer.stale || answer.trouble ? null : answer
}
export const takeOver = (node, names = {}) => make({ node: node.id, names }, "take")
const namesOf = ({ missing }) => missing.map(({ name }) => name).join(", ")

export const missingText = (answer) => missingParts(answer).map((part) => (typeof part === "string" ? part : `⟨${part.name}⟩`)).join("")

// What is missing, in words; an element that may have several names stands among them as itself.
export function missingParts({ missing, no, least }) {
  if (no === "wide") return ["Elements are missing here; the list is too wide to tell which."]
  if (no) return ["Elements are missing here."]
  if (missing.length === 0) return ["Nothing is missing here."]
  const where = ({ around, behind }) => (around ? ` round ${around}` : behind ? ` after ${behind}` : "")
  const each = (element, at) => [at ? ", " : "", element.choices?.length > 1 ? element : `⟨${element.name}⟩`, where(element)]
  return [`Missing here${least ? "" : ", though fewer may do"}: `, ...missing.flatMap(each), "."]
}

// The names that the session offers for a move, as their costs come in; another that is typed is tried. A move is about a
// run, which follows what becomes of it, or about a node.
// What else may be done there stands `first` in its menu, or `last`; `all` takes a name in place of that move.
export function offerNames(name, { kind, run = null, node = null }, { first, last, all } = {}) {
  const marks = run && markRun(app.tree, run)
  const told_ = (label) => {
    if (node) return app.tree.isThere(node) ? { kind, node: node.id, name: label } : null
    const place = runAt(app.tree, marks)
    return place && { kind, place: told(place), name: label }
  }
  const take = all ?? ((label, pairs = []) => make(() => withPairs(told_(label), pairs), pairs.length ? "tag" : "move"))
  const at = () => marks && runAt(app.tree, marks)
  const others = (call) => (call && at() ? call(at()).map((each) => ({ ...each, isOther: true, take: () => each.take(null, at) })) : [])
  const here = { marks, told: told_, take, count: null, all: (names) => [...others(first), ...names, ...others(last)] }
  here.fill = () => fillNames(here)
  begin(here)
  const menu = { name, box: boxOfChosen, around: boxRoundChosen, choices: [], isWaiting: true, typed: take, names: app.names, inSight: () => here.count?.() }
  const each = !all && kind === "wrap" && hasLines(run) ? (label, pairs) => at() && openPieces(label, at(), pairs) : null
  const text = kind === "wrap" && !all ? plainTextOf(run) : ""
  const everywhere = text ? (label, pairs) => openEverywhere(label, text, null, pairs) : null
  const known = text ? async (label) => (await ask("known", { name: label, text })).known ?? [] : null
  openMenu({ ...menu, each, everywhere, known, closed, keepFocus: isByTouch() })
  fillNames(here)
}

const withPairs = (move, pairs) => move && (pairs.length ? { ...move, pairs } : move)

async function fillNames(here) {
  const asked = (here.asked = (here.asked ?? 0) + 1)
  const isOpen = () => isMenuOpen() && offer === here && here.asked === asked
  here.count = null
  const answer = await question("offer", () => offered(here.told("")))
  if (!isOpen()) return
  if (!answer) return shut(here.told("") ? "What may stand here isn't known." : GONE)
  const costs = {}
  takeCosts(costs, answer.costs ?? {})
  for (const label of answer.whole ?? []) costs[label] = { more: 0 }
  const choices = () => {
    const names = ordered(answer, costs)
    here.offered = names.map(({ label }) => label)
    return here.all(names.map((choice) => ({ ...choice, take: here.take })))
  }
  const first = answer.task ? askCosts(answer.task, costs) : null
  if (first) await Promise.race([first, new Promise((done) => setTimeout(done, SCREENFUL))])
  if (!isOpen()) return
  hint(hintOf(answer))
  setChoices(choices())
  if (answer.no) refuse(sentenceOf(answer))
  if (!first || !isOpen()) return
  here.count = counting({ ...answer, costs, first, isOpen, show: () => setChoices(choices()) })
  here.count()
}

// What is offered is asked by: the place, or the element.
const offered = (move) => move && (move.place ?? { node: move.node })

// What counts costs as long as a menu is open: first what is quickly told, then of the rows in sight, and for a while of
// all. It is called again where others come into sight.
function counting({ task, names: offered, costs, first, isOpen, show }) {
  const end = performance.now() + ALL
  const isLacking = (name) => costs[name] === undefined || (costs[name]?.more > 0 && !costs[name].names)
  const isWanted = (name) => offered.includes(name) && isLacking(name)
  let isAsking = false
  return async () => {
    if (isAsking) return
    isAsking = true
    try {
      let answer = await first
      for (;;) {
        if (!isOpen()) return
        show()
        const names = answer.is_quick ? rowsInSight().filter(isWanted) : []
        const all = performance.now() < end
        if (answer.is_quick && names.length === 0 && !(all && answer.left)) return
        answer = await askCosts(task, costs, names, all)
        // Another menu is counted now, in another window.
        if (answer.is_gone) return
      }
    } finally {
      isAsking = false
    }
  }
}

async function askCosts(task, costs, names = [], all = false) {
  const answer = await ask("costs", { task, names, all })
  takeCosts(costs, answer.costs)
  for (const [name, more] of Object.entries(answer.names)) if (costs[name]) costs[name].names = more
  return answer
}

function takeCosts(costs, counts) {
  for (const [name, more] of Object.entries(counts)) costs[name] = more === null ? null : { more }
}

// How many menus were opened or closed: what comes in for one of them isn't shown in the next.
let openings = 0

// First those after which no more is missing, then by how many more; in each group in the order in which the program
// tells them.
function ordered({ names = [] }, costs) {
  const more = (name) => costs[name]?.more ?? (costs[name] === undefined ? UNCOUNTED : Infinity)
  const rank = new Map(names.map((name, at) => [name, at]))
  const order = (name) => [Math.max(0, more(name)), rank.get(name)]
  const sorted = names.toSorted((one, other) => compared(order(one), order(other)))
  const isCounted = names.some((name) => costs[name])
  const group = (name) => (isCounted ? groupOf(costs[name]) : undefined)
  return sorted.map((name) => ({ label: name, note: noteOf(costs[name]), group: group(name) }))
}

function compared(one, other) {
  const at = one.findIndex((value, at) => value !== other[at])
  return at < 0 ? 0 : one[at] < other[at] ? -1 : 1
}

const noteOf = (cost) => (cost && cost.more > 0 ? (cost.names ?? []).join(", ") : "")

function groupOf(cost) {
  if (cost === undefined) return "counted when it is in sight"
  if (cost === null) return "can't be counted"
  if (cost.more <= 0) return "no more is missing then"
  return `+${cost.more}: then ${cost.more} more ${cost.more === 1 ? "is" : "are"} missing`
}

function hintOf(answer) {
  if (answer.names?.length === 0) return "No element may stand here. A name that is typed is tried all the same."
  return "No name that is offered begins so."
}

// Makes a move, which is told, or by a call when its turn has come; where it is refused, says so where it was asked for,
// shows the list and what stands in the way, and gives that.
export async function make(move, request = "move", then = flash) {
  forget()
  refused = null
  let told = null
  const opened = openings
  const refusal = await change(request, () => {
    told = typeof move === "function" ? move() : move
    making = told !== null
    return told
  })
  making = false
  // What is open by now may be another menu.
  const isOpen = isMenuOpen() && opened === openings
  if (!refusal) {
    if (isOpen) closeMenu()
    if (app.made) then(app.made)
    if (!isMenuOpen()) rest()
  } else if (refusal.no === "gone") isOpen ? shut(GONE) : tell(GONE_)
  else if (refusal.no === "trouble" && isOpen) closeMenu()
  else if (refusal.no !== "stale" && refusal.no !== "trouble") showWhyNot(refusal, told ?? {})
  return refusal
}
const GONE_ = "The place isn't there any more; nothing was done."
let making = false

// The sentence stands in the menu, or at the tag where no menu is open.
export function showWhyNot(refusal, move = {}) {
  showRefused(refusal)
  const instead = isMenuOpen() ? (offer?.offered ?? []).filter((name) => name !== move.name).slice(0, INSTEAD) : []
  const text = sentenceOf(refusal, move, instead)
  refused = { node: app.tree.nodes.get(refusal.list) ?? app.tree.top, text, model: refusal.model }
  if (isMenuOpen()) refuse(withModel(text, refusal.model))
  else say(refused.node, text, null, refusal.model)
}
// So many names that would do are told.
const INSTEAD = 3

// What the last refusal said, and the list that it spoke of.
let refused = null

function closed() {
  begin(null)
  rest()
  if (refused && !isSaying()) say(refused.node, refused.text, null, refused.model)
  refused = null
}

// A change that the menu didn't make leaves it open, with what was typed; what it offers is asked again.
listeners.push((changed) => {
  if (!changed || making || !isMenuOpen() || !offer) return
  waitAgain()
  offer.fill()
  stand()
})
