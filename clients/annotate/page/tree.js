// The page's copy of the document's tree: which nodes there are, and their order. It takes what the program tells it,
// and decides nothing.

const WHITE = /^[ \t\r\n]*$/

export class Tree {
  // Rows are nodes in document order, each with its depth.
  constructor(rows, verdict) {
    this.top = { id: 0, kind: "element", name: "", kids: [], owner: null, size: 1, verdict }
    this.nodes = new Map([[0, this.top]])
    // Places that follow what becomes of them, and what became of units of texts in the last change.
    this.marks = new Set()
    this.pieced = []
    const open = [this.top]
    for (const row of rows) {
      open.length = row.depth
      const node = this.made(row)
      node.owner = open[row.depth - 1]
      node.owner.kids.push(node)
      open.push(node)
    }
    const order = [...this.all()]
    for (const node of order.reverse()) if (node.owner) node.owner.size += node.size
  }

  get root() {
    return this.top.kids[0]
  }

  made(row) {
    const node = { ...row, owner: null, size: 1 }
    if (row.kind === "element") node.kids = []
    this.nodes.set(node.id, node)
    return node
  }

  // All nodes, in document order.
  *all(from = this.top) {
    const todo = [from]
    while (todo.length) {
      const node = todo.pop()
      yield node
      if (node.kids) for (let at = node.kids.length - 1; at >= 0; at--) todo.push(node.kids[at])
    }
  }

  // Makes a change, and gives the nodes that have to be drawn again.
  apply(change) {
    if ("rename" in change) {
      const node = this.nodes.get(change.rename)
      node.name = change.name
      return node
    }
    if ("attributes" in change) {
      const node = this.nodes.get(change.attributes)
      node.attrs = change.attrs
      return node
    }
    if ("comment" in change) {
      const node = this.nodes.get(change.comment)
      node[node.kids ? "note" : "text"] = change.text
      return node
    }
    const owner = this.nodes.get(change.list)
    this.pieced = []
    const nodes = change.kids.map((told) => this.given(told))
    const old = owner.kids.splice(change.from, change.to - change.from, ...nodes)
    for (const node of nodes) node.owner = owner
    const grown = sizeOf(nodes) - sizeOf(old)
    for (let node = owner; node; node = node.owner) node.size += grown
    for (const mark of this.marks) if (old.includes(mark.kid ?? mark.owner)) this.moveMark(mark, owner, change.from, old, nodes)
    return owner
  }

  // Marks a place of a list: it follows what becomes of it, until it is let go. `leans` says on which side of a cut it
  // stays, where it is cut there: 1 after it, -1 before it.
  mark(owner, [kid, unit], leans = -1) {
    const mark = { owner, kid, unit, leans, isLost: false }
    this.marks.add(mark)
    return mark
  }

  // Where a mark stands now; none where its place is gone.
  placeOf(mark) {
    if (mark.isLost || !this.isThere(mark.kid ?? mark.owner)) return null
    return { owner: mark.kid?.owner ?? mark.owner, at: [mark.kid, mark.unit] }
  }

  isThere(node) {
    for (let at = node; at !== this.top; at = at.owner) if (!at?.owner?.kids.includes(at)) return false
    return true
  }

  // A mark in one of the old nodes, in whose place these stand now.
  moveMark(mark, owner, from, old, nodes) {
    const { kid, unit } = mark
    if (kid && (nodes.includes(kid) || nodes.some(({ kids }) => kids?.includes(kid)))) return void (mark.owner = kid.owner)
    if (kid?.kind === "text") {
      const fits = this.pieced.filter(({ number, from, to }) => number === kid.id && unit >= from && unit <= to)
      const piece = mark.leans > 0 ? fits.at(-1) : fits[0]
      if (piece) return put(mark, owner, this.nodes.get(piece.id), piece.at + unit - piece.from)
      const isOne = old.length === 1 && nodes.length === 1 && nodes[0].kind === "text"
      if (isOne) return put(mark, owner, nodes[0], unitAcross(kid, nodes[0], unit))
    }
    const isBehind = kid === null || (unit > 0 && unit === lengthOf(kid))
    put(mark, owner, owner.kids[isBehind ? from + nodes.length : from] ?? null, 0)
  }

  // Takes over the marks of another tree of the same document: in nodes of the same number, or at the same path.
  adopt(marks) {
    for (const mark of marks) {
      const node = mark.kid ?? mark.owner
      const same = this.nodes.get(node.id) ?? this.at(pathOf(node))
      const isSame = same?.kind === node.kind && same.name === node.name && same.text === node.text
      if (isSame) put(mark, mark.kid ? same.owner : same, mark.kid && same, mark.unit)
      else mark.isLost = true
    }
    this.marks = marks
  }

  // A sum of all that is shown: the program has one of the document, and compares them. None where the browser has no sums.
  async sum() {
    const rows = []
    const todo = [...this.top.kids].reverse().map((node) => [1, node])
    while (todo.length) {
      const [depth, node] = todo.pop()
      const references = Object.entries(node.refs ?? {}).map(([at, source]) => `${at}=${source}`).join("")
      rows.push([depth, node.kind, node.name ?? "", node.attrs ?? "", node.note ?? "", node.text ?? "", references].join("\0") + "\n")
      for (const kid of (node.kids ?? []).toReversed()) todo.push([depth + 1, kid])
    }
    const sum = await crypto.subtle?.digest("SHA-256", new TextEncoder().encode(rows.join("")))
    return sum ? [...new Uint8Array(sum)].map((byte) => byte.toString(16).padStart(2, "0")).join("") : ""
  }

  at(path) {
    return path.reduce((node, at) => node?.kids?.[at], this.top)
  }

  // A node that is told by its number, or one that is new, round nodes that are told by theirs.
  given(told) {
    if (typeof told === "number") return this.nodes.get(told)
    if (told.of) return this.made({ id: told.id, kind: told.kind, ...this.pieces(told.of, told.id) })
    const { kids, ...row } = told
    const node = this.made(row)
    for (const number of kids ?? []) {
      const kid = this.nodes.get(number)
      kid.owner = node
      node.kids.push(kid)
    }
    node.size = 1 + sizeOf(kids ? node.kids : [])
    return node
  }

  // The text of units of other texts.
  pieces(of, id) {
    let text = ""
    let refs = null
    let length = 0
    for (const [number, from, end] of of) {
      const node = this.nodes.get(number)
      const to = end ?? lengthOf(node)
      for (const [place, source] of Object.entries(node.refs ?? {})) {
        const at = Number(place)
        if (at >= from && at < to) (refs ??= {})[length + at - from] = source
      }
      this.pieced.push({ number, from, to, id, at: length })
      text += sliceOf(node, from, to)
      length += to - from
    }
    return refs ? { text, refs } : { text }
  }

  // The elements by name: how many there are, and how many of them aren't finished.
  names() {
    const names = new Map()
    for (const node of this.all(this.root)) {
      if (node.kind !== "element") continue
      const row = names.get(node.name) ?? { count: 0, open: 0, bad: 0 }
      row.count += 1
      row.open += node.verdict === "possible"
      row.bad += node.verdict === "impossible"
      names.set(node.name, row)
    }
    return names
  }

  // The next list in document order that isn't valid, after this node's, or the first where there is none.
  nextOpen(after, step) {
    const open = [...this.all()].filter((node) => node.kids && (node.verdict ?? "valid") !== "valid")
    if (step < 0) open.reverse()
    const order = new Map([...this.all()].map((node, at) => [node, step * at]))
    return open.find((node) => after && order.get(node) > order.get(after)) ?? open[0]
  }
}

function sizeOf(nodes) {
  let size = 0
  for (const node of nodes) size += node.size
  return size
}

function put(mark, owner, kid, unit) {
  Object.assign(mark, { owner, kid, unit })
}

// Where a node stands, by the numbers of kids from the document node on.
const pathOf = (node) => (node.owner ? [...pathOf(node.owner), node.owner.kids.indexOf(node)] : [])

// The unit of a text that stands for that of another, in whose place it is.
function unitAcross(old, now, unit) {
  const [before, after] = [lengthOf(old), lengthOf(now)]
  const most = Math.min(before, after)
  let front = 0
  while (front < most && unitAt(old, front) === unitAt(now, front)) front += 1
  if (unit <= front) return unit
  let rest = 0
  while (rest < most - front && unitAt(old, before - rest - 1) === unitAt(now, after - rest - 1)) rest += 1
  return before - unit <= rest ? after - (before - unit) : after - rest
}

// A text's units are its characters; one outside the plane has two of the places that strings count.
const unitsOf = (node) => (node.units ??= /[\ud800-\udfff]/.test(node.text) ? [...node.text] : node.text)
export const lengthOf = (node) => (node.text === undefined || node.kind !== "text" ? 1 : unitsOf(node).length)
export const unitAt = (node, at) => unitsOf(node)[at]
export function sliceOf(node, from, to) {
  const units = unitsOf(node)
  return typeof units === "string" ? units.slice(from, to) : units.slice(from, to).join("")
}

// The place after the last line end up to there, or the place itself where there is none after `from`.
export function lineEndBefore(node, from, to) {
  const end = unitsOf(node).lastIndexOf("\n", to - 1)
  return end >= from ? end + 1 : to
}

export const isWhite = (node) => node.kind === "text" && !node.refs && WHITE.test(node.text)
export const holdsText = (node) => node.kids.some((kid) => kid.kind === "cdata" || (kid.kind === "text" && !isWhite(kid)))

// The nodes from the document node down to this one.
export function lineOf(node) {
  const line = []
  for (let at = node; at; at = at.owner) line.unshift(at)
  return line
}
