// Where a selection is: a run of one list, told as [kid, unit] from and to. What it takes of an element in part, it
// takes whole.
import { isWhite, lengthOf, lineOf, sliceOf, unitAt } from "./tree.js"

const count = (text) => [...text].length

// The run of a range of the page; none where it holds nothing of the document.
export function runOf(range, tree, host) {
  if (!host.contains(range.commonAncestorContainer)) return null
  const found = range.collapsed ? caretIn(range) : itemsIn(range, host)
  if (!found) return null
  const [first, from, last, to] = found
  const start = tree.nodes.get(first)
  const end = tree.nodes.get(last)
  if (!start || !end) return null
  return trimmed(joined(start, from, end, to), range.collapsed)
}

// A run over an element, or from what is before or after it up to it.
export function runOver(node, run = null) {
  const over = { owner: node.owner, from: [node, 0], to: [node, 1] }
  if (!run) return over
  const start = run.from[0] ?? run.owner
  const end = run.to[0] ?? run.owner
  return isBefore(start, node) ? joined(start, run.from[1], node, 1) : joined(node, 0, end, run.to[1])
}

export const isEmpty = (run) => run.from[0] === run.to[0] && run.from[1] === run.to[1]

// Marks a run, or a place, in the tree: what it was before a change, it is after it.
export function markRun(tree, { owner, from, to }) {
  const isPlace = from[0] === to[0] && from[1] === to[1]
  const end = tree.mark(owner, to, -1)
  return { start: isPlace ? end : tree.mark(owner, from, 1), end }
}

// The run that is marked; none where it is gone, or isn't in one list any more.
export function runAt(tree, { start, end }) {
  const [from, to] = [tree.placeOf(start), tree.placeOf(end)]
  if (!from || !to) return null
  if (start === end) return { owner: to.owner, from: to.at, to: to.at }
  const kids = from.owner.kids
  const order = ([kid, unit]) => [kid ? kids.indexOf(kid) : kids.length, unit]
  const [[first, cut], [last, lastCut]] = [order(from.at), order(to.at)]
  if (from.owner !== to.owner || first > last || (first === last && cut >= lastCut)) return null
  return { owner: from.owner, from: from.at, to: to.at }
}

export function unmark(tree, marks) {
  for (const mark of marks ? [marks.start, marks.end] : []) tree?.marks.delete(mark)
}

// As the program takes it.
export const told = (run) => ({ list: run.owner.id, from: [run.from[0]?.id ?? null, run.from[1]], to: [run.to[0]?.id ?? null, run.to[1]] })

function caretIn(range) {
  const text = textAt(range.startContainer)
  if (!text) return null
  const unit = placeIn(text, range.startContainer, range.startOffset)
  return [Number(text.dataset.id), unit, Number(text.dataset.id), unit]
}

// The first and the last text, or other leaf, that the range holds something of.
function itemsIn(range, host) {
  const common = range.commonAncestorContainer
  const text = textAt(common)
  const among = text ? [text] : common.querySelectorAll(".text, .leaf, .tag.only, .slot")
  const items = [...among].filter((item) => range.intersectsNode(item) && isTouched(range, item))
  if (items.length === 0 || !host.contains(items[0])) return null
  const [first, last] = [items[0], items.at(-1)]
  const from = first.contains(range.startContainer) && isText(first) ? placeIn(first, range.startContainer, range.startOffset) : atOf(first)
  const to = last.contains(range.endContainer) && isText(last) ? placeIn(last, range.endContainer, range.endOffset) : endOf(last)
  return [numberOf(first), from, numberOf(last), to]
}

const isText = (item) => item.classList.contains("text")
const atOf = (item) => Number(item.dataset.at ?? 0)
const endOf = (item) => (isText(item) ? atOf(item) + count(item.textContent) : 1)
const numberOf = (item) => Number(item.closest("[data-id]").dataset.id)
const textAt = (node) => (node.nodeType === Node.TEXT_NODE ? node.parentElement : node).closest(".text")

function isTouched(range, item) {
  if (item.matches(".slot")) return true
  const inside = document.createRange()
  inside.selectNodeContents(item)
  if (range.compareBoundaryPoints(Range.START_TO_START, inside) > 0) inside.setStart(range.startContainer, range.startOffset)
  if (range.compareBoundaryPoints(Range.END_TO_END, inside) < 0) inside.setEnd(range.endContainer, range.endOffset)
  return !inside.collapsed && inside.toString() !== ""
}

function placeIn(text, container, offset) {
  const before = document.createRange()
  before.setStart(text, 0)
  before.setEnd(container, offset)
  return atOf(text) + count(before.toString())
}

// The run of the deepest list that holds both ends.
function joined(start, from, end, to) {
  const starts = lineOf(start)
  const ends = lineOf(end)
  let depth = 0
  while (depth + 2 < starts.length && depth + 2 < ends.length && starts[depth + 1] === ends[depth + 1]) depth += 1
  const [first, last] = [starts[depth + 1], ends[depth + 1]]
  return { owner: starts[depth], from: [first, first === start ? from : 0], to: [last, last === end ? to : 1] }
}

// The run without the white space at its ends, where it holds something else.
function trimmed(run, collapsed) {
  if (collapsed) return run
  const { kids } = run.owner
  let [first, from] = run.from
  let [last, to] = run.to
  while (first !== last || from < to) {
    if (first.kind !== "text") break
    const end = first === last ? to : lengthOf(first)
    while (from < end && isBlank(first, from)) from += 1
    if (from < end || first === last) break
    ;[first, from] = [kids[kids.indexOf(first) + 1], 0]
  }
  if (first === last && from >= to) return run
  while (last.kind === "text") {
    while (to > (first === last ? from : 0) && isBlank(last, to - 1)) to -= 1
    if (to > 0) break
    last = kids[kids.indexOf(last) - 1]
    to = last.kind === "text" ? lengthOf(last) : 1
  }
  return { owner: run.owner, from: [first, from], to: [last, to] }
}

const isBlank = (node, at) => !node.refs?.[at] && " \t\r\n".includes(unitAt(node, at))

function isBefore(one, other) {
  const [ones, others] = [lineOf(one), lineOf(other)]
  let at = 0
  while (ones[at] === others[at] && at < ones.length) at += 1
  if (at === ones.length || at === others.length) return at === ones.length
  const kids = ones[at - 1].kids
  return kids.indexOf(ones[at]) < kids.indexOf(others[at])
}

// The range of the page that shows a run, as far as it is drawn.
export function rangeOf(run, view) {
  const range = document.createRange()
  const start = pointOf(run.from, view, false)
  const end = pointOf(run.to, view, true)
  if (!start || !end) return null
  range.setStart(...start)
  range.setEnd(...end)
  return range
}

function pointOf([node, unit], view, behind) {
  if (node === null) return null
  if (node.kind !== "text") {
    const box = view.box(node)
    if (!box) return null
    const at = [...box.parentNode.childNodes].indexOf(box)
    return [box.parentNode, at + unit]
  }
  const pieces = view.host.querySelectorAll(`.text[data-id="${node.id}"]`)
  const isIn = (piece) => unit >= atOf(piece) && (unit < endOf(piece) || (unit === endOf(piece) && (behind || unit === lengthOf(node))))
  const piece = [...pieces].find(isIn)
  return piece ? pointIn(piece, unit - atOf(piece)) : null
}

function pointIn(piece, units) {
  const walk = document.createTreeWalker(piece, NodeFilter.SHOW_TEXT)
  let text = piece
  for (let left = units; walk.nextNode(); ) {
    text = walk.currentNode
    const size = count(text.data)
    if (left <= size) return [text, [...text.data].slice(0, left).join("").length]
    left -= size
  }
  return [text, text.length ?? 0]
}

// The elements of a run's list that it holds or touches, each the only one of its name among them.
export function singlesIn({ owner, from: [first, from], to: [last, to] }) {
  const { kids } = owner
  const start = first === null ? kids.length : kids.indexOf(first)
  const end = last === null ? kids.length - 1 : kids.indexOf(last)
  const isBefore = from === 0 ? kids[start - 1] : null
  const isBehind = to === (last === null ? 0 : lengthOf(last)) ? kids[end + 1] : null
  const among = [isBefore, ...kids.slice(start, end + 1), isBehind].filter((kid) => kid?.kind === "element")
  const counts = new Map()
  for (const { name } of among) counts.set(name, (counts.get(name) ?? 0) + 1)
  return among.filter(({ name }) => counts.get(name) === 1)
}

// All text in a node.
export function textOf(node) {
  if (node.kind !== "element") return node.kind === "text" ? node.text : ""
  return node.kids.map(textOf).join("")
}

// The text of a run within the texts of one list; nothing where it holds tags.
export function plainTextOf(run) {
  const [first, from] = run.from
  const [last, to] = run.to
  const { kids } = run.owner
  if (first === null || first.kind !== "text" || last?.kind !== "text") return ""
  if (first === last) return sliceOf(first, from, to)
  const between = kids.slice(kids.indexOf(first) + 1, kids.indexOf(last))
  if (between.some((kid) => kid.kind !== "text")) return ""
  return sliceOf(first, from, lengthOf(first)) + between.map(({ text }) => text).join("") + sliceOf(last, 0, to)
}

// The text of a run, also of the elements in it.
export function allTextOf({ owner: { kids }, from: [first, from], to: [last, to] }) {
  const part = (kid) => sliceOf(kid, kid === first ? from : 0, kid === last ? to : lengthOf(kid))
  return kids.slice(kids.indexOf(first), kids.indexOf(last) + 1).map((kid) => (kid.kind === "text" ? part(kid) : textOf(kid))).join("")
}

// A place so many units on in the texts side by side, or back, as far as they go.
export function stepped([kid, unit], step, owner) {
  const { kids } = owner
  let at = kid === null ? kids.length : kids.indexOf(kid)
  let place = unit
  if (at === kids.length || (kids[at].kind !== "text" && step < 0 && place === 0)) {
    if (kids[at - 1]?.kind !== "text") return [kid, unit]
    at -= 1
    place = lengthOf(kids[at])
  }
  if (kids[at].kind !== "text") return [kid, unit]
  place += step
  while (place < 0 && kids[at - 1]?.kind === "text") {
    at -= 1
    place += lengthOf(kids[at])
  }
  while (place > lengthOf(kids[at]) && kids[at + 1]?.kind === "text") {
    place -= lengthOf(kids[at])
    at += 1
  }
  return [kids[at], Math.max(0, Math.min(place, lengthOf(kids[at])))]
}

// So many characters of the texts before a run at most, and of those after it.
export function stretchRound({ owner, from, to }, most) {
  const [start, end] = [stepped(from, 0, owner), stepped(to, 0, owner)]
  const before = plainTextOf({ owner, from: stepped(from, -most, owner), to: start })
  return [before, plainTextOf({ owner, from: end, to: stepped(to, most, owner) })]
}

// What a run is, in words.
export function nameOf(run) {
  const kids = run.owner.kids
  const whole = kids.slice(kids.indexOf(run.from[0]), kids.indexOf(run.to[0]) + 1)
  const elements = whole.filter((kid) => kid.kind === "element")
  const texts = whole.some((kid) => kid.kind !== "element" && !isWhite(kid))
  const named = elements.length === 1 ? `⟨${elements[0].name}⟩` : `${elements.length} elements`
  const what = elements.length === 0 ? "text" : texts ? `text and ${named}` : named
  return run.owner.id === 0 ? what : `${what} in ⟨${run.owner.name}⟩`
}
