// Comments: put at an element, or changed where one stands, beside the session; and the list of them.
import { app, change, question, tell } from "./app.js"
import { chooseElement, chosen, rest } from "./choose.js"
import { commentOf, FLAG, make } from "./draw.js"
import { closeMenu } from "./menu.js"
import { panel } from "./sides.js"

const dialog = document.getElementById("comment")
const [field, refusal] = dialog.querySelectorAll("textarea, .refusal")
let node = null

// The form of the comment at an element, or of one that stands in the document.
export function openComment(of) {
  closeMenu()
  node = of
  dialog.querySelector("h2").textContent = of.kids ? `Comment at ⟨${of.name}⟩` : "Comment"
  field.value = commentOf(of)
  dialog.querySelector(".drop").disabled = field.value === ""
  refuse("")
  dialog.showModal()
  field.focus()
}

// Flags the element that is chosen, or the one round the caret, or takes its flag away; a comment that says something else stays.
export function toggleFlag() {
  const { run, element } = chosen()
  const of = element ?? run?.owner
  if (!of?.owner) return tell("Click on a tag, or into its text, and press F2: its element gets the flag “to check”.", true)
  const said = commentOf(of)
  if (said && said !== FLAG) return openComment(of)
  put(of, said ? "" : FLAG)
}

const put = (of, text) => change("comment", { node: of.id, text })

async function set(text) {
  if (!app.tree.isThere(node)) return refuse("What this comment is at isn't there any more.")
  const refused = await put(node, text)
  if (!refused) return dialog.close()
  refuse(document.querySelector("#note span").textContent)
  tell("")
}

function refuse(why) {
  refusal.hidden = why === ""
  refusal.textContent = why
}

dialog.querySelector("form").addEventListener("submit", (event) => {
  if (event.submitter?.value === "close") return
  event.preventDefault()
  set({ flag: FLAG, drop: "" }[event.submitter?.value] ?? field.value)
})
field.addEventListener("keydown", (event) => {
  if (event.key !== "Enter" || !(event.ctrlKey || event.metaKey)) return
  event.preventDefault()
  set(field.value)
})
document.getElementById("document").addEventListener("click", ({ target }) => {
  const leaf = target.closest("[data-comment]")
  if (leaf && getSelection().isCollapsed) openComment(app.tree.nodes.get(Number(leaf.dataset.comment)))
})

export const showComments = panel("remarks", "said", fill)

async function fill(box) {
  const answer = await question("comments")
  if (!answer || box.hidden) return
  box.querySelector("p").textContent = answer.comments.length ? "A click goes to the place." : "No comment yet. A tag's menu puts one there; F2 flags what is to be checked."
  box.querySelector("ol").replaceChildren(...answer.comments.map(({ node: id, text, at }) => {
    const button = make("button", text === FLAG ? "flagged" : "", make("span", "name", at), " ", make("span", "note", text === FLAG ? `⚑ ${text}` : text))
    button.addEventListener("click", () => goTo(app.tree.nodes.get(id)))
    return make("li", "", button)
  }))
}

function goTo(of) {
  if (!of || !app.tree.isThere(of)) return
  app.view.reveal(of).scrollIntoView({ block: "center" })
  if (of.kids) chooseElement(of)
  rest()
}
