// What stands beside the document, its history and its elements by name, and the preview over it.
import { app, change, onTrouble, question, tell } from "./app.js"
import { ask } from "./ask.js"
import { chooseElement, rest } from "./choose.js"
import { make, View } from "./draw.js"
import { choiceOf } from "./refusal.js"
import { panel } from "./sides.js"
import { Tree } from "./tree.js"

const completed = document.getElementById("completed")
const beside = document.getElementById("beside")

export const showHistory = panel("moves", "history", fillMoves)
export const showElements = panel("elements", "list", fillElements)

async function fillMoves(moves) {
  const answer = await question("history")
  if (!answer) return
  const items = ["opened", ...answer.made, ...answer.undone].map((text, at) => {
    const item = make("button", at > answer.made.length ? "undone" : at === answer.made.length ? "now" : "", text)
    if (at === answer.made.length) item.setAttribute("aria-current", "step")
    item.addEventListener("click", () => change("back", { to: at }))
    return make("li", "", item)
  })
  moves.querySelector("ol").replaceChildren(...items)
  moves.querySelector(".now")?.scrollIntoView({ block: "nearest" })
}

// The element that was gone to last, by its name.
const visited = new Map()

function fillElements(elements) {
  const names = [...app.tree.names()].sort(([one], [other]) => one.localeCompare(other))
  const items = names.map(([name, { count, open, bad }]) => {
    const left = [open && `${open} not finished`, bad && `${bad} can't be`].filter(Boolean).join(", ")
    const item = make("button", bad ? "bad" : open ? "open" : "")
    item.append(make("span", "name", name), " ", make("span", "count", String(count)))
    if (left) item.append(" ", make("span", "note", left))
    item.addEventListener("click", () => goToNamed(name, item))
    return make("li", "", item)
  })
  elements.querySelector("ol").replaceChildren(...items)
}

function goToNamed(name, item) {
  const all = [...app.tree.all(app.tree.root)].filter((node) => node.kind === "element" && node.name === name)
  const at = (all.indexOf(visited.get(name)) + 1) % all.length
  visited.set(name, all[at])
  app.view.reveal(all[at]).scrollIntoView({ block: "center" })
  chooseElement(all[at])
  item.querySelector(".count").textContent = `${at + 1} of ${all.length}`
}

// The preview.
const WHY_NOT = {
  impossible: "There is a place where no added elements can make the document valid; it is red.",
  heavy: "More than 1,000,000 elements are missing.",
}
const all = completed.querySelector(".all")
const view = completed.querySelector(".view")

export async function showPreview() {
  const title = completed.querySelector("h2")
  title.textContent = "A valid document is looked for …"
  view.replaceChildren()
  all.hidden = completed.querySelector(".about").hidden = true
  if (!completed.open) completed.showModal()
  const answer = await ask("preview")
  if (!completed.open || answer.stale) return
  if (!answer.tree) {
    title.textContent = "There is no preview"
    view.textContent = answer.trouble ?? whyNot(answer)
    return
  }
  const count = `${answer.new} new element${answer.new === 1 ? "" : "s"}`
  const told = `Valid with ${count}${answer.least ? ", and no fewer" : "; fewer may do"}. The document itself is as it was.`
  title.textContent = answer.new ? told : "The document is valid as it is"
  all.hidden = completed.querySelector(".about").hidden = answer.new === 0
  const tree = new Tree(answer.tree, "valid")
  new View(view, view, "new").draw(tree)
  news = tree.nodes
  for (const tag of view.querySelectorAll(".new > .tag:not(.end)")) makeButton(tag)
  view.querySelector(".new")?.scrollIntoView({ block: "center" })
}

// What is new in the preview, by its number.
let news = new Map()

// A tag that can be taken over, also by keys. Where other names would do, they are chosen in it.
function makeButton(tag) {
  const node = news.get(Number(tag.dataset.tag))
  if (node.choices?.length > 1) tag.firstChild.replaceWith(choiceOf(node))
  Object.assign(tag, { role: "button", tabIndex: 0, ariaHidden: "false", ariaLabel: `Take over ${tag.textContent}` })
  tag.title = "Insert this element"
}

function whyNot({ no, list }) {
  const name = app.tree.nodes.get(list)?.name ?? "an element"
  if (no === "wide") return `⟨${name}⟩ holds too much to find the least that has to be added.`
  return WHY_NOT[no] ?? String(no)
}

async function take(what) {
  const left = ({ left }) => left && tell(`${left === 1 ? "An element that may have several names wasn't" : `${left} elements that may have several names weren't`} taken over: Preview shows them.`)
  const refusal = await change("take", what, left)
  if (refusal?.no) tell("What was shown can't be taken over any more.")
  return !refusal
}

all.addEventListener("click", async () => (await take({})) && completed.close())
view.addEventListener("click", async ({ target }) => {
  const tag = target.closest("select") ? null : target.closest(".new > .tag")
  const number = tag && Number(tag.dataset.tag)
  if (tag && (await take({ new: number, name: news.get(number).chosen ?? null }))) showPreview()
})
view.addEventListener("keydown", (event) => {
  if (event.key !== "Enter" || event.target.closest("select") || !event.target.closest(".new > .tag")) return
  event.preventDefault()
  event.target.click()
})
completed.addEventListener("close", () => {
  view.replaceChildren()
  ask("stop")
})

// Where the document can't be written as it is: it was changed by another program, it has to be asked first how, or the
// page has another one than the program shows.
const ways = document.getElementById("ways")
const differs = document.getElementById("differs")
onTrouble.push((_, answer) => {
  if (answer.changed) askForName()
  else if (answer.ways) askForWay(answer)
  else if (answer.differs) showBoth(answer.differs)
})

function askForWay({ trouble, ways: open }) {
  tell("")
  ways.querySelector(".about").textContent = trouble
  for (const button of ways.querySelectorAll(".choices button")) button.hidden = button.value !== "beside" && !open.includes(button.value)
  ways.returnValue = ""
  ways.showModal()
}
ways.addEventListener("close", () => {
  if (ways.returnValue === "beside") askForName()
  else if (["replace", "into"].includes(ways.returnValue)) save(ways.returnValue)
})

function showBoth(both) {
  for (const [at, part] of [...differs.querySelectorAll("pre")].entries()) part.textContent = both[at]
  differs.showModal()
}

// Writes the document: the sum of what is shown here goes with it, and where that isn't the document nothing is written.
export const save = (way = "") => change("save", async () => ({ way, seen: await app.tree.sum() }))

function askForName() {
  const input = beside.querySelector("input")
  input.value ||= document.title.replace(/(\.\w+)?$/, "-marked$1")
  beside.returnValue = ""
  beside.showModal()
  input.select()
}
beside.addEventListener("close", async () => {
  if (beside.returnValue !== "save") return
  const answer = await question("save-beside", { name: beside.querySelector("input").value })
  if (answer) tell(`Written to ${answer.path}.`)
})

// After a dialog the document has the focus again.
for (const dialog of document.querySelectorAll("dialog")) {
  dialog.addEventListener("close", () => rest())
}
