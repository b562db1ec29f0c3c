// The places that a tag is to go round, in a dialog: those that are left ticked get it, in one move.
import { change, tell } from "./app.js"
import { make } from "./draw.js"
import { closeMenu } from "./menu.js"
import { pairsOf, pairsText } from "./pairs.js"

const dialog = document.getElementById("everywhere")
const [title, count, list] = [dialog.querySelector("h2"), dialog.querySelector(".about"), dialog.querySelector("ol")]
const cut = dialog.querySelector(".cut")
const attributes = dialog.querySelector(".with input")
const refusal = dialog.querySelector(".refusal")
const known = document.getElementById("known-tags")
const tag = dialog.querySelector(".tag-all")

// Lists places as they are asked for: `ask` gives `rows`, each with its place, the parts that are shown of it, a note, and
// whether it is ticked, and a sentence `about` them. `request` makes the tag, by `name`. What is cut `by` lines or
// paragraphs may be cut the other way. The tag has the `pairs` of attributes that are told, unless that is changed; those
// that are `known` are offered, and where `pairs` is none each place has its own. `closed` is called at the end.
export async function showPlaces({ heading, name, request, ask, closed = () => {} }) {
  // It is there at once, so that no key comes anywhere else meanwhile.
  closeMenu()
  title.textContent = heading
  cut.hidden = true
  attributes.closest("p").hidden = true
  refuse("")
  dialog.returnValue = ""
  const own = (shown += 1)
  let open = []
  const fill = async (by) => {
    count.textContent = "…"
    list.replaceChildren()
    tag.disabled = true
    open = []
    const answer = await ask(by)
    if (!dialog.open || own !== shown) return
    if (!answer) return dialog.close()
    cut.hidden = answer.by === undefined
    cut.value = answer.by ?? ""
    open = answer.rows
    attributes.closest("p").hidden = !answer.pairs
    // What was typed stays where it is cut another way.
    if (by === null) attributes.value = pairsText(answer.pairs ?? [])
    known.replaceChildren(...(answer.known ?? []).map((each) => new Option(pairsText(each), pairsText(each))))
    count.textContent = answer.about
    list.replaceChildren(...open.map(rowOf))
    tag.disabled = open.length === 0
    if (by === null && open.length) tag.focus()
  }
  cut.onchange = () => fill(cut.value)
  tag.onclick = (event) => {
    if (pairsOf(attributes.value) !== null) return
    event.preventDefault()
    refuse(`Attributes are written as key="adams", and not as ${attributes.value}.`)
  }
  dialog.onclose = async () => {
    const boxes = [...list.querySelectorAll("input")]
    const places = open.filter((_, at) => boxes[at].checked).map(({ place }) => place)
    if (dialog.returnValue === "tag" && places.length) await change(request, { name, places, pairs: pairsOf(attributes.value) }, toldOf)
    closed()
  }
  dialog.showModal()
  await fill(null)
}

function refuse(why) {
  refusal.hidden = why === ""
  refusal.textContent = why
}

// How often places were listed: what comes in for an earlier list isn't shown in the next.
let shown = 0

const toldOf = ({ refused }) => refused && tell(`The tag was refused at ${refused} of these places.`)

// How many places there are, in words.
export function aboutText(count, what, rest, more) {
  const left = `${rest ? `; at ${rest} more it would be refused` : ""}${more ? "; there are more than are listed" : ""}`
  return `${count} ${what}${count === 1 ? "" : "s"} without this tag${left}. Those that are ticked get it, in one move.`
}

function rowOf({ parts, note, isTicked }) {
  const box = document.createElement("input")
  box.type = "checkbox"
  box.checked = isTicked
  return make("li", "", make("label", "", box, " ", make("span", "context", ...parts), " ", make("span", "note", note)))
}
