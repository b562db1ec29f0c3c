// What the page knows: the tree, its version, and what was drawn. Each answer of the program is taken over here.
import { ask, whenGone, window_ } from "./ask.js"
import { View } from "./draw.js"
import { Tree } from "./tree.js"

const host = document.getElementById("document")
const note = document.getElementById("note")
const others = new BroadcastChannel(location.pathname)

// `made` is the element that the last change made or renamed, `where` the one whose list it changed, `changed` the place
// there; `names` are those that the DTD declares.
export const app = { tree: null, view: new View(host, host), state: null, made: null, where: null, changed: null, names: new Set() }
// Called with whether something changed, after each answer.
export const listeners = []
// Called where an answer says that the document can't be saved as it is: what was asked for, and the answer.
export const onTrouble = []

// A sentence for the user; it stays until it is closed, or where `passes` until something else is done.
export function tell(text, passes = false) {
  note.hidden = text === ""
  note.firstElementChild.textContent = text
  note.classList.toggle("passing", (passing = passes))
}
let passing = false
for (const event of ["pointerdown", "keydown"]) addEventListener(event, () => passing && tell(""), true)
note.lastElementChild.addEventListener("click", () => tell(""))
whenGone(() => tell("The program has ended. Each move is kept: start it again in the terminal, and open its address."))

// One request at a time, in order: what a user does is done in the order in which it came, each after what came before.
let busy = Promise.resolve()
let turns = 0
function inTurn(work) {
  turns += 1
  const done = busy.then(work)
  busy = done.catch(() => {})
  document.body.ariaBusy = "true"
  const last = busy
  busy.then(() => last === busy && (document.body.ariaBusy = "false"))
  return done
}
// How many requests there were, and when all of them are answered.
export const turnsSoFar = () => turns
export const settled = () => busy

// While a button of the mouse is held down nothing is drawn anew: what is being selected would be lost.
let held = null
export const isHeld = () => held !== null
export function setHeld(is) {
  if (!is) {
    held?.end()
    held = null
  } else if (!held) {
    held = {}
    held.over = new Promise((end) => (held.end = end))
  }
}
addEventListener("blur", () => setHeld(false))
async function answered(name, what) {
  const answer = await ask(name, what)
  await held?.over
  if (answer.again) tell(`${answer.again}.`)
  return answer
}

// Asks for a move, an undo or the like; gives what it was refused for, or nothing where it was made. `what` is what it is
// about, or a call that tells it when its turn has come: none where there is nothing any more. `also` is called with an
// answer that was taken. What `goesOn` is asked again, with what is told then, where another window was quicker.
export function change(name, what = {}, also = () => {}, goesOn = false) {
  return inTurn(async () => {
    for (let tries = 0; ; tries += 1) {
      const told = typeof what === "function" ? await what() : what
      if (!told) return { no: "gone" }
      const answer = await answered(name, { ...told, version: app.state.version })
      if (answer.stale) {
        const isOther = await takeState()
        if (goesOn && tries < 5) continue
        tell(isOther ? OTHER : "What this was about isn't there any more; nothing was done.")
        return { no: "stale" }
      }
      if (answer.trouble) {
        tell(answer.trouble)
        for (const call of onTrouble) call({ name, ...told }, answer)
        if (answer.unseen) take(await answered("state"))
        return { no: "trouble", why: answer.trouble }
      }
      if ("version" in answer) {
        take(answer)
        others.postMessage(app.state.version)
      }
      if (answer.no) return answer
      also(answer)
      return null
    }
  })
}
const OTHER = "The document was changed in another window. It is shown as it is; nothing was done here."

// Asks for what changes nothing; none where there is no such answer now.
export function question(name, what = {}) {
  return inTurn(async () => {
    for (let tries = 0; ; tries += 1) {
      const told = typeof what === "function" ? what() : what
      if (!told) return null
      const answer = await answered(name, told)
      if (answer.stale) await takeState()
      if (answer.stale && typeof what === "function" && tries < 5) continue
      if (answer.trouble) tell(answer.trouble)
      return answer.stale || answer.trouble ? null : answer
    }
  })
}

// Takes over what has changed; whether another window says that it was its doing.
async function takeState() {
  const state = await answered("state", { since: app.state?.version ?? null })
  take(state)
  return (state.changes ?? []).some(({ by }) => by && by !== window_)
}

// Looks whether another window has changed something.
export const catchUp = () => inTurn(takeState)
others.addEventListener("message", ({ data }) => data !== app.state?.version && catchUp())
addEventListener("focus", catchUp)

function take(state) {
  const isNew = "tree" in state
  app.made = app.changed = null
  if (isNew) {
    const marks = app.tree?.marks ?? new Set()
    app.tree = new Tree(state.tree, state.top)
    app.tree.adopt(marks)
    app.view.draw(app.tree)
  } else keepInSight(() => state.changes.forEach(takeMove))
  app.tree.top.verdict = state.top
  host.dataset.verdict = state.top
  app.state = { ...state, tree: undefined, changes: undefined }
  for (const call of listeners) call(isNew || state.changes.length > 0)
}

function takeMove({ changes, verdicts }) {
  const changed = new Map()
  for (const each of changes) {
    const node = app.tree.apply(each)
    const isTag = "rename" in each || "attributes" in each || "comment" in each
    app.where = node.kids ? node : node.owner
    if ("list" in each) app.changed = { owner: node, to: [node.kids[each.from] ?? null, 0] }
    changed.set(node, changed.get(node) || isTag)
    const made = each.kids?.find((told) => told.kind === "element")
    if (made) app.made = app.tree.nodes.get(made.id)
    if (isTag && node.kids) app.made = node
  }
  for (const [id, verdict] of Object.entries(verdicts)) app.tree.nodes.get(Number(id)).verdict = verdict
  for (const [node, renamed] of changed) app.view.redraw(node, renamed || !node.kids)
  for (const id of Object.keys(verdicts)) app.view.mark(app.tree.nodes.get(Number(id)))
}

// Draws anew without letting the page jump.
function keepInSight(draw) {
  const top = host.scrollTop
  draw()
  host.scrollTop = top
}
