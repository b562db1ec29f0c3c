// The palette: tags with their attributes, each put by one key, or by a click beside the document. It is a file beside the
// DTD, which the page writes too.
import { app, question, tell } from "./app.js"
import { chosen } from "./choose.js"
import { make as element } from "./draw.js"
import { isLocked } from "./lock.js"
import { isMenuOpen } from "./menu.js"
import { make } from "./offers.js"
import { pairsOf, pairsText } from "./pairs.js"
import { isEmpty, told } from "./place.js"
import { panel } from "./sides.js"

const dialog = document.getElementById("tags-of")
const rows = dialog.querySelector("tbody")
// Its tags: a key, a name, pairs of attributes, and a colour.
let tags = []

export const showPalette = panel("palette", "colours", fill)

export function setPalette(told) {
  tags = told
  app.view.colours = new Map(tags.filter(({ colour }) => colour).map(({ name, colour }) => [name, colour]))
  if (app.tree) app.view.draw(app.tree)
  const box = document.getElementById("palette")
  if (!box.hidden) fill(box)
}

function fill(box) {
  const none = "No tag yet. Each has a key, a name and attributes, and stands in tags.txt beside the DTD."
  box.querySelector("p").textContent = tags.length ? "Alt and the key, or a click, puts the tag round what is selected." : none
  box.querySelector("ol").replaceChildren(...tags.map((tag) => {
    const button = element("button", "", element("kbd", "", tag.key), " ", element("span", "name", tag.name), " ", element("span", "note", pairsText(tag.pairs)))
    if (tag.colour) button.style.borderLeft = `4px solid ${tag.colour}`
    // What is selected stays so.
    button.addEventListener("mousedown", (event) => event.preventDefault())
    button.addEventListener("click", () => put(tag))
    return element("li", "", button)
  }))
}

// Puts a tag of the palette round what is selected, at the caret, or in the place of the element that is chosen.
function put({ name, pairs }) {
  const { run, element: one } = chosen()
  if (one) return make({ kind: "rename", node: one.id, name, pairs }, "tag")
  if (!run || run.owner.id === 0) return tell("Select what the tag is to go round, and press its key.")
  return make({ kind: isEmpty(run) ? "insert" : "wrap", place: told(run), name, pairs }, "tag")
}

// Takes a key of the palette: with Alt at any time, alone where the text is locked, something is selected and no menu is
// open. Whether it was one.
export function takeKey(event) {
  if (event.ctrlKey || event.metaKey || event.repeat) return false
  const { run, element: one } = chosen()
  const isAlone = !event.altKey && isLocked() && !isMenuOpen() && (one || (run && !isEmpty(run)))
  if (!event.altKey && !isAlone) return false
  const tag = tags.find(({ key }) => key === event.key || (event.altKey && key === keyOf(event)))
  if (tag) put(tag)
  return Boolean(tag)
}

// With Alt some keyboards give another character than the key has.
const keyOf = ({ code }) => code.replace(/^(Key|Digit)(.)$/, (_, kind, key) => (kind === "Key" ? key.toLowerCase() : key))

// The form, with a row more where one is given.
export function editPalette(more = null) {
  rows.replaceChildren(...[...tags, ...(more ? [more] : [])].map(rowOf))
  if (rows.children.length === 0) add()
  refuse("")
  dialog.showModal()
  ;(more ? rows.lastElementChild : rows).querySelector("input")?.focus()
}

function rowOf({ key = "", name = "", pairs = [], colour = "" }) {
  const drop = element("button", "drop", "✕")
  Object.assign(drop, { type: "button", ariaLabel: "Remove this tag" })
  const row = element("tr", "", ...[["Key", key], ["Name", name], ["Attributes", pairsText(pairs)], ["Colour", colour]].map(field), element("td", "", drop))
  drop.addEventListener("click", () => row.remove())
  return row
}

function field([label, value]) {
  const input = document.createElement("input")
  Object.assign(input, { value, ariaLabel: label, placeholder: label.toLowerCase(), spellcheck: false, autocomplete: "off" })
  if (label === "Key") input.maxLength = 1
  return element("td", "", input)
}

function add() {
  rows.append(rowOf({}))
  rows.lastElementChild.querySelector("input").focus()
}

function refuse(why) {
  const place = dialog.querySelector(".refusal")
  place.hidden = why === ""
  place.textContent = why
}

dialog.querySelector(".add").addEventListener("click", add)
document.querySelector("#palette .edit").addEventListener("click", () => editPalette())
dialog.querySelector(".set").addEventListener("click", async (event) => {
  event.preventDefault()
  const texts = [...rows.children].map((row) => [...row.querySelectorAll("input")].map(({ value }) => value.trim())).filter((row) => row.some(Boolean))
  const palette = texts.map(([key, name, attributes, colour]) => ({ key, name, pairs: pairsOf(attributes), colour }))
  const bad = palette.findIndex(({ pairs }) => pairs === null)
  if (bad >= 0) return refuse(`Attributes are written as key="adams", and not as ${texts[bad][2]}.`)
  const answer = await question("set-palette", { palette })
  if (!answer) {
    refuse(document.querySelector("#note span").textContent)
    return tell("")
  }
  setPalette(answer.palette)
  dialog.close()
})
