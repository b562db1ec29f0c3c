// The form of a tag's attributes: names and values. Those that the DTD requires come first, with the values that it lists
// and what a value must be; nothing is refused for it.
import { change, question, tell } from "./app.js"
import { closeMenu } from "./menu.js"
import { make } from "./draw.js"

const dialog = document.getElementById("attributes")
const rows = dialog.querySelector("tbody")
const names = document.getElementById("declared")
const also = dialog.querySelector(".also")

let declared = null
let ids = []
// The values that attributes are known to have; and the other elements of the same words.
let known = {}
let others = []
let node = null
// The lists of values have names of their own.
let lists = 0

export async function openAttributes(of) {
  const answer = await question("attributes", { node: of.id })
  if (!answer) return
  closeMenu()
  node = of
  declared = answer.declared
  ids = answer.ids ?? []
  known = answer.known
  showOthers(answer)
  dialog.querySelector("h2").textContent = `Attributes of ⟨${answer.name}⟩`
  dialog.querySelector(".about").textContent = aboutText(answer)
  names.replaceChildren(...(declared ?? []).map(({ name }) => new Option(name, name)))
  // Required ones first, also those that are missing, which are left out where they stay empty.
  const required = (declared ?? []).filter((each) => each.required)
  const given = new Map(answer.pairs)
  const isRequired = ([name]) => required.some((each) => each.name === name)
  const front = required.map(({ name, only }) => rowOf(name, given.get(name) ?? only ?? "", !given.has(name)))
  rows.replaceChildren(...front, ...answer.pairs.filter((pair) => !isRequired(pair)).map(([name, value]) => rowOf(name, value)))
  if (rows.children.length === 0) add()
  refuse("")
  dialog.showModal()
  const empty = [...rows.querySelectorAll("tr.missing .value")].find(({ value }) => value === "")
  ;(empty ?? rows.querySelector("input"))?.focus()
}

// The other elements of the same name and the same words: those that are ticked are changed with this one.
function showOthers(answer) {
  others = answer.others
  also.hidden = others.length === 0
  also.open = false
  also.querySelector("summary").textContent = `the same on ${others.length} other${others.length === 1 ? "" : "s"} of these words`
  also.querySelector("ol").replaceChildren(...others.map(({ before, behind, attrs }) => {
    const box = document.createElement("input")
    box.type = "checkbox"
    const label = make("label", "", box, " ", make("span", "context", before, make("mark", "", "…"), behind), " ", make("span", "note", attrs))
    return make("li", "", label)
  }))
  also.querySelector(".every input").checked = false
}
also.querySelector(".every input").addEventListener("change", ({ target }) => {
  for (const box of also.querySelectorAll("ol input")) box.checked = target.checked
})

function aboutText({ name, declared: list, why }) {
  if (why) return `${why} They are kept as they are written.`
  if (list === null) return "No declaration of attributes can be read in the DTD. They are kept as they are written."
  if (list.length === 0) return `The DTD declares no attributes of ⟨${name}⟩.`
  const told = ({ name: each, kind, default: given, required }) => `${each} (${kind}${required || given === "#REQUIRED" ? ", required" : ""})`
  return `The DTD declares: ${list.map(told).join(", ")}.`
}

function rowOf(name, value, isMissing = false) {
  const row = make("tr", isMissing ? "missing" : "")
  const [drop, note] = [make("button", "drop", "✕"), make("span", "note")]
  const cells = [field("Name", name, "declared"), field("Value", value), drop, note]
  cells[1].classList.add("value")
  const values = document.createElement("datalist")
  values.id = `values-${(lists += 1)}`
  cells[1].setAttribute("list", values.id)
  cells[2].type = "button"
  cells[2].ariaLabel = "Remove this attribute"
  cells[2].addEventListener("click", () => row.remove())
  const look = () => judge(cells[0], cells[1], values, note)
  cells[0].addEventListener("input", look)
  cells[1].addEventListener("input", look)
  look()
  row.append(make("td", "", cells[0]), make("td", "", cells[1], values), make("td", "", cells[2], " ", note))
  return row
}

function field(label, value, list = null) {
  const input = document.createElement("input")
  Object.assign(input, { value, ariaLabel: label, placeholder: label.toLowerCase(), spellcheck: false, autocomplete: "off" })
  if (list) input.setAttribute("list", list)
  return input
}

// What is to be said of a name and its value, and the values that are offered for it.
function judge(name, value, values, note) {
  const told = declared?.find((each) => each.name === name.value)
  const options = [...(told?.kind.startsWith("IDREF") ? ids : (told?.values ?? [])).map((each) => new Option(each, each))]
  options.push(...(known[name.value] ?? []).map((each) => new Option(each.about, each.value)))
  values.replaceChildren(...options)
  const isMissing = told?.required && value.value === "" && told.kind !== "CDATA"
  const isOther = told?.values?.length > 1 && value.value !== "" && !told.values.includes(value.value) && told.kind.startsWith("(")
  const must = told?.means && told.means !== "any text" ? `: ${told.means}` : ""
  const called = (known[name.value] ?? []).find((each) => each.value === value.value)?.about ?? ""
  if (declared !== null && name.value !== "" && !told) note.textContent = "not declared"
  else if (isMissing) note.textContent = `required${must}`
  else note.textContent = isOther ? `not listed${must}` : told?.required ? "required" : called
  note.title = told?.means ?? ""
}

function refuse(why) {
  const place = dialog.querySelector(".refusal")
  place.hidden = why === ""
  place.textContent = why
}

function add() {
  rows.append(rowOf("", ""))
  rows.lastElementChild.querySelector("input").focus()
}

dialog.querySelector(".add").addEventListener("click", add)
dialog.querySelector(".set").addEventListener("click", async (event) => {
  event.preventDefault()
  const all = [...rows.children].map((row) => [...row.querySelectorAll("input")].map(({ value }) => value))
  const boxes = [...also.querySelectorAll("ol input")]
  const ticked = others.filter((_, at) => boxes[at].checked).map((each) => each.node)
  const untouched = ([name, value], at) => value === "" && rows.children[at].classList.contains("missing")
  const pairs = all.filter((pair, at) => (pair[0] || pair[1]) && !untouched(pair, at))
  const refusal = await change("set-attributes", { node: node.id, pairs, also: ticked })
  if (!refusal) return dialog.close()
  refuse(document.querySelector("#note span").textContent)
  tell("")
})
