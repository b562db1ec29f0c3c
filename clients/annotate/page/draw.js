// Draws a tree as boxes. A list is drawn in chunks, each of some hundred nodes, and a chunk is filled when it comes
// into sight and emptied when it is far from it. So what is drawn stays small, whatever the size of the document.
//
// A list without text is drawn as blocks, one below another. One with text is drawn as a flow, and so is what stands in
// it, unless that is big.
import { holdsText, lengthOf, lineEndBefore, lineOf, sliceOf } from "./tree.js"

// The most nodes, and the most characters, of a chunk; an element with more nodes is a block.
const NODES = 200
const CHARACTERS = 6000
// From which depth on a block isn't indented any more.
const DEEP = 20
// How far from sight a chunk is filled, in pixels.
const NEAR = 1000

export function make(name, className, ...inside) {
  const made = document.createElement(name)
  made.className = className
  made.append(...inside)
  return made
}

// A sentence, in which names and models stand between backticks.
export const worded = (text) => text.split("`").map((part, at) => (at % 2 ? make("code", "", part) : part))

// The names that are declared EMPTY: nothing can be put into these.
export const empties = new Set()

// What the DTD's author wrote before the declarations of names.
export const comments = new Map()

// What is said of a node in a comment: at an element, or as one in the document. A flag is one that says only that.
export const FLAG = "to check"
export const isComment = (node) => node.kind === "misc" && node.text.startsWith("<!--")
export function commentOf(node) {
  const source = node.kids ? (node.note ?? "") : node.text
  return source.startsWith("<!--") ? source.slice(4, -3).trim() : ""
}

// The first words of an element, so that it can be told from others of its name.
const WORDS = 40
function firstWords(node) {
  let text = ""
  const todo = [node]
  while (todo.length && text.length <= WORDS) {
    const each = todo.pop()
    if (each.kind === "text") text = `${text}${each.text.slice(0, 4 * WORDS)}`.replace(/\s+/g, " ").trimStart()
    else if (each.kids && each !== node && text && !text.endsWith(" ") && !holdsText(each.owner)) text += " "
    if (each.kids) for (let at = each.kids.length - 1; at >= 0; at--) todo.push(each.kids[at])
  }
  const words = text.trim()
  return words.length > WORDS ? `${words.slice(0, WORDS).trimEnd()}…` : words
}

// The hue of a name, the same wherever it stands: those of names that are declared one after another are far apart.
export const hues = new Map()
export const setHues = (names) => names.forEach((name, at) => hues.set(name, Math.round(at * 137.508) % 360))
const hueOf = (name) => hues.get(name) ?? [...name].reduce((sum, char) => (sum * 31 + char.codePointAt(0)) % 360, 7)

// What a list's verdict is called.
const VERDICTS = { possible: ", not finished", impossible: ", can't be finished" }

export class View {
  // `prefix` begins the boxes' identifiers.
  constructor(host, scroller, prefix = "node") {
    this.host = host
    this.scroller = scroller
    this.prefix = prefix
    this.boxes = new Map()
    // The colours of names that have one.
    this.colours = new Map()
    this.seen = new IntersectionObserver((entries) => this.look(entries), { root: scroller, rootMargin: `${NEAR}px` })
  }

  // Everything anew.
  draw(tree) {
    this.seen.disconnect()
    this.boxes.clear()
    this.tree = tree
    this.host.replaceChildren()
    this.fillList(tree.top, this.host)
  }

  // The box of a node, where it is drawn.
  box(node) {
    return this.boxes.get(node.id)
  }

  // A node's list has changed, or its name.
  redraw(node, renamed) {
    for (let each = node; each?.owner; each = each.owner) this.mark(each)
    const box = node.owner === null ? this.host : this.box(node)
    if (!box) return
    if (node.owner !== null && (renamed || box.classList.contains("inline"))) this.refill((renamed ? box.parentElement : box).closest(".chunk"))
    else this.fillList(node, node.owner === null ? this.host : box.querySelector(":scope > .list"))
  }

  // A node's verdict has changed.
  mark(node) {
    const box = this.box(node)
    if (box && node.kids) this.judge(node, box)
  }

  // Tells those that are drawn of an element's kids which of them they are, and how many there are.
  number(node) {
    const kids = (node?.kids ?? []).filter(({ kind }) => kind === "element")
    for (const [at, kid] of kids.entries()) {
      const box = this.box(kid)
      if (!box) continue
      box.ariaPosInSet = String(at + 1)
      box.ariaSetSize = String(kids.length)
    }
  }

  // Puts a verdict on a box: its colour, what it is called, and why nothing can mend it, which `explain` fills in.
  judge(node, box) {
    box.dataset.verdict = node.verdict ?? "valid"
    const said = commentOf(node)
    const words = firstWords(node)
    const parts = [`${node.name}${VERDICTS[node.verdict] ?? ""}${node.new ? ", new" : ""}`, spelled(node.attrs ?? ""), said && `comment: ${said}`, words && `“${words}”`]
    box.ariaLabel = parts.filter(Boolean).join(", ")
    box.querySelector(":scope > .why")?.remove()
    if (node.verdict !== "impossible" || !this.explain) return
    const why = make("span", "why")
    box.querySelector(":scope > .tag").after(why)
    this.explain(node, why)
  }

  // Draws all that is needed to show this node, and gives its box.
  reveal(node) {
    if (node.owner === null) return this.host
    const list = this.reveal(node.owner)
    if (!this.box(node)) {
      const chunks = list === this.host ? list.children : list.querySelector(":scope > .list")?.children ?? []
      for (const chunk of chunks) if (chunk.rows?.some((row) => row.nodes.includes(node))) this.fill(chunk)
    }
    return this.box(node) ?? list
  }

  // Puts the chunks of a list into its box; those that are as before are kept.
  fillList(node, list) {
    const old = new Map([...list.children].map((chunk) => [chunk.key, chunk]))
    const chunks = chunksOf(node).map((rows) => {
      const key = keyOf(rows)
      const chunk = old.get(key) ?? make("div", "chunk")
      old.delete(key)
      chunk.key = key
      chunk.rows = rows
      return chunk
    })
    for (const chunk of old.values()) this.drop(chunk)
    list.replaceChildren(...chunks)
    list.parentElement.classList.toggle("texts", holdsText(node))
    list.classList.toggle("nothing", chunks.length === 0)
    if (chunks.length === 1) {
      this.fill(chunks[0])
      return this.number(node)
    }
    for (const chunk of chunks) {
      if (!chunk.filled) chunk.style.height ||= `${heightOf(chunk.rows)}px`
      this.seen.observe(chunk)
    }
    this.fillNear(chunks)
    this.number(node)
  }

  // Fills at once what is in sight, so that nothing flickers.
  fillNear(chunks) {
    const { top, bottom } = this.scroller.getBoundingClientRect()
    for (const chunk of chunks) {
      if (!chunk.isConnected) return
      const box = chunk.getBoundingClientRect()
      if (box.top > bottom) break
      if (box.bottom >= top) this.fill(chunk)
    }
  }

  look(entries) {
    for (const { target, isIntersecting } of entries) {
      if (isIntersecting) this.fill(target)
      else if (target.filled && !target.contains(getSelection().anchorNode)) this.empty(target)
    }
  }

  fill(chunk) {
    if (chunk.filled) return
    chunk.filled = true
    chunk.style.height = ""
    chunk.append(...chunk.rows.map((row) => this.row(row)))
    for (const wait of this.waiting.splice(0)) this.fillList(...wait)
    this.number(chunk.rows[0]?.nodes[0]?.owner)
  }

  // Draws all of it, and nothing is removed until `letGo`.
  fillAll() {
    this.isKept = true
    for (;;) {
      const chunks = [...this.host.querySelectorAll(".chunk")].filter((each) => !each.filled)
      if (chunks.length === 0) return
      for (const chunk of chunks) this.fill(chunk)
    }
  }
  letGo() {
    this.isKept = false
    for (const chunk of this.host.querySelectorAll(".chunk")) {
      this.seen.unobserve(chunk)
      this.seen.observe(chunk)
    }
  }

  empty(chunk) {
    if (this.isKept) return
    chunk.style.height = `${chunk.getBoundingClientRect().height}px`
    this.drop(chunk)
  }

  drop(chunk) {
    for (const inner of chunk.querySelectorAll(".chunk")) this.seen.unobserve(inner)
    for (const box of chunk.querySelectorAll("[data-id]")) {
      const id = Number(box.dataset.id)
      if (this.boxes.get(id) === box) this.boxes.delete(id)
    }
    chunk.replaceChildren()
    chunk.filled = false
  }

  refill(chunk) {
    this.drop(chunk)
    this.fill(chunk)
  }

  // Lists whose boxes have to stand in the page before they are filled.
  waiting = []

  row(row) {
    if (row.block) return this.block(row.nodes[0])
    const flow = make("div", "flow")
    for (const node of row.nodes) flow.append(this.inline(node, row))
    return flow
  }

  block(node) {
    if (node.kind !== "element") return this.leaf(node, "div")
    const list = make("div", empties.has(node.name) ? "list void" : "list")
    list.role = "group"
    const depth = lineOf(node).length
    const box = this.element(node, "div", depth > DEEP ? "block deep" : "block", this.tag(node, "start"), list)
    this.waiting.push([node, list])
    return box
  }

  inline(node, row) {
    if (node.kind === "text") return this.text(node, row.from ?? 0, row.to)
    if (node.kind !== "element") return this.leaf(node, "span")
    if (node.kids.length === 0 && empties.has(node.name)) return this.element(node, "span", "inline", this.tag(node, "only"))
    if (node.kids.length === 0) return this.element(node, "span", "inline", this.tag(node, "start"), make("span", "slot"), this.tag(node, "end"))
    return this.element(node, "span", "inline", this.tag(node, "start"), ...node.kids.map((kid) => this.inline(kid, {})), this.tag(node, "end"))
  }

  element(node, name, className, ...inside) {
    const box = this.put(node, make(name, `element ${className}`, ...inside))
    box.id = `${this.prefix}${node.id}`
    box.role = "treeitem"
    box.ariaLevel = String(lineOf(node).length - 1)
    box.ariaSelected = "false"
    if (node.new) box.classList.add("new")
    // Elements round it have other colours than their own.
    box.style.setProperty("--own", this.colours.get(node.name) ?? "initial")
    box.style.setProperty("--hue", hueOf(node.name))
    this.number(node)
    this.judge(node, box)
    return box
  }

  // A comment, a processing instruction or a CDATA section.
  leaf(node, name) {
    const leaf = this.put(node, make(name, `leaf ${node.kind}`, entities.get(node.text) ?? node.text))
    leaf.hidden = node.text === ""
    if (isComment(node)) leaf.dataset.comment = node.id
    return leaf
  }

  put(node, box) {
    box.dataset.id = node.id
    this.boxes.set(node.id, box)
    return box
  }

  tag(node, form) {
    const tag = make("span", `tag ${form}`, node.name)
    tag.dataset.tag = node.id
    if (comments.has(node.name)) tag.title = comments.get(node.name)
    tag.ariaHidden = "true"
    if (node.attrs && form !== "end") tag.append(" ", make("span", "attrs", spelled(node.attrs)))
    const said = form === "end" ? "" : commentOf(node)
    if (said) {
      const sign = make("span", said === FLAG ? "remark flag" : "remark", said === FLAG ? " ⚑" : " ✎")
      sign.title = said
      tag.append(sign)
    }
    return tag
  }

  // A text, or its units from one up to another; a reference is told apart from the character that it stands for.
  text(node, from, to) {
    const text = make("span", "text")
    text.dataset.id = node.id
    text.dataset.at = from
    if (from === 0) this.boxes.set(node.id, text)
    const end = to ?? lengthOf(node)
    let at = from
    for (const [place, source] of referencesOf(node, from, end)) {
      const reference = make("span", "reference", sliceOf(node, place, place + 1))
      reference.title = entities.get(source) ?? source
      if (entities.has(source)) reference.dataset.entity = entities.get(source)
      text.append(sliceOf(node, at, place), reference)
      at = place + 1
    }
    text.append(sliceOf(node, at, end))
    return text
  }
}

// Attributes in which a reference to an entity is as it was written.
function spelled(attrs) {
  let text = attrs
  for (const [form, name] of entities) text = text.replaceAll(form, name)
  return text
}

// The references to entities, by what stands for them in the document that the program reads.
export const entities = new Map()

// The references among units of a text, in order.
function referencesOf(node, from, to) {
  const found = Object.entries(node.refs ?? {}).map(([at, source]) => [Number(at), source])
  return found.filter(([at]) => at >= from && at < to)
}

// The rows of a list: each is a block, or a run of what flows.
function rowsOf(node) {
  if (!holdsText(node)) return node.kids.filter((kid) => kid.kind !== "text").map((kid) => ({ block: true, nodes: [kid], size: kid.size, length: 0 }))
  const rows = []
  let run = null
  for (const kid of node.kids) {
    if (kid.kind === "text" && kid.text.length > CHARACTERS) {
      rows.push(...piecesOf(kid))
      run = null
    } else if (kid.size > NODES) {
      rows.push({ block: true, nodes: [kid], size: kid.size, length: 0 })
      run = null
    } else {
      if (!run || run.size + kid.size > NODES || run.length > CHARACTERS) rows.push((run = { block: false, nodes: [], size: 0, length: 0 }))
      run.nodes.push(kid)
      run.size += kid.size
      run.length += kid.text?.length ?? 40
    }
  }
  return rows
}

// A long text in pieces, cut after a line end where there is one.
function piecesOf(node) {
  const length = lengthOf(node)
  const pieces = []
  for (let from = 0; from < length; ) {
    const most = Math.min(from + CHARACTERS, length)
    const to = most === length ? length : lineEndBefore(node, from, most)
    pieces.push({ block: false, nodes: [node], from, to, size: 1, length: to - from })
    from = to
  }
  return pieces
}

function chunksOf(node) {
  const chunks = []
  let size = 0
  let length = 0
  for (const row of rowsOf(node)) {
    if (chunks.length === 0 || size + row.size > NODES || length + row.length > CHARACTERS) {
      chunks.push([])
      size = length = 0
    }
    chunks.at(-1).push(row)
    size += row.size
    length += row.length
  }
  return chunks
}

// What tells one chunk from another.
const keyOf = (rows) => rows.map(({ block, nodes, from, to }) => [block, from, to, ...nodes.map((node) => node.id)].join()).join(";")

// A guess: it stands until the chunk is filled for the first time.
function heightOf(rows) {
  let height = 0
  for (const row of rows) height += row.block ? 34 + Math.min(row.size - 1, 4000) * 26 : 28 * Math.ceil(1 + row.length / 90)
  return height
}
