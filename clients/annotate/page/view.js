// Where the document is looked at: told to the program, so that a reload or a restart begins there, with the same panel open.
import { app } from "./app.js"
import { ask, beforeBye } from "./ask.js"
import { caretPlace, leaveAt } from "./choose.js"
import { openPanel, showPanel } from "./sides.js"
import { lengthOf } from "./tree.js"

const host = document.getElementById("document")
// So long after the last change it is told, in milliseconds.
const PAUSE = 800

const pathOf = (node) => (node.owner ? [...pathOf(node.owner), node.owner.kids.indexOf(node)] : [])
const nodeAt = (path) => path.reduce((node, at) => node?.kids?.[at], app.tree.top)

// The node at the top of what is seen, how far above the top it begins, the caret, and what stands beside.
function viewOf() {
  const { left, top, width } = host.getBoundingClientRect()
  const box = document.elementsFromPoint(left + width / 2, top + 12).map((each) => each.closest("#document [data-id]")).find(Boolean)
  const node = box && app.tree.nodes.get(Number(box.dataset.id))
  const place = caretPlace()
  const [kid, unit] = place?.to ?? [null, 0]
  return {
    path: node ? pathOf(node) : [], above: node ? Math.round(top - box.getBoundingClientRect().top) : 0, panel: openPanel(),
    caret: kid && app.tree.isThere(kid) ? [pathOf(kid), unit] : null,
  }
}

let telling = 0
let told = ""
function tellSoon() {
  clearTimeout(telling)
  telling = setTimeout(() => {
    const view = viewOf()
    if (JSON.stringify(view) === told) return
    told = JSON.stringify(view)
    ask("view", view).catch(() => {})
  }, PAUSE)
}

// Goes to where the document was looked at last; what isn't there any more is passed over.
export function goBack({ path, above = 0, caret, panel }) {
  if (panel) showPanel(panel)
  const node = path?.length ? nodeAt(path) : null
  const [at, unit] = caret ?? []
  const kid = at && nodeAt(at)
  if (kid?.owner && unit <= lengthOf(kid)) leaveAt({ owner: kid.owner, from: [kid, unit], to: [kid, unit] })
  if (!node) return
  const go = () => {
    const box = app.view.reveal(node)
    host.scrollTop += box.getBoundingClientRect().top - host.getBoundingClientRect().top + above
  }
  go()
  // What came into sight is drawn by now, and has its height.
  requestAnimationFrame(() => requestAnimationFrame(go))
}

export function keepView() {
  host.addEventListener("scroll", tellSoon)
  document.addEventListener("selectionchange", tellSoon)
  document.addEventListener("click", tellSoon)
  document.addEventListener("keyup", tellSoon)
  beforeBye(() => (app.tree ? { view: viewOf() } : {}))
}
