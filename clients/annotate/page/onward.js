// A document of a folder: whether it is done, and the way to the next one.
import { app, question, settled, tell } from "./app.js"
import { hello, whenGone } from "./ask.js"
import { make } from "./draw.js"
import { save } from "./panels.js"

const back = document.getElementById("drawer")
const done = document.getElementById("done")
const onward = document.getElementById("onward")

export function setDrawer({ title, at, of, done: isDone }) {
  for (const each of [back, done, onward, ...document.querySelectorAll(".of-drawer")]) each.hidden = false
  back.textContent = `‹ ${title}`
  back.title = at ? `Back to the list: this is ${at} of ${of}` : "Back to the list"
  show(isDone)
}

const show = (isDone) => done.setAttribute("aria-checked", String(isDone))
const isDone = () => done.getAttribute("aria-checked") === "true"

async function mark(is) {
  const answer = await question("mark", { done: is })
  if (answer) show(answer.done)
  return answer !== null
}
done.addEventListener("click", () => mark(!isDone()))
onward.addEventListener("click", (event) => goOnward(event.shiftKey))

// Goes to the next document that isn't done, where all of this one is written; whether there are others at all.
export function goOnward(marks) {
  if (onward.hidden) return false
  go(marks)
  return true
}
async function go(marks) {
  await settled()
  if (!app.state.saved && (await save())) return
  if (marks && !(await mark(true))) return
  const answer = await question("onward")
  if (answer?.url) location.href = `../${answer.url}/`
  else if (answer) tell("All other documents are done.")
}

// The document can't be opened, and why. Nothing more can be done here, but to make its moves again where it was changed.
export function closedBecause({ trouble, changed }) {
  tell(trouble)
  whenGone(() => {})
  if (changed) {
    const again = make("button", "", "Make the moves again")
    again.addEventListener("click", async () => {
      const answer = await hello({ again: true })
      if (answer.trouble) tell(answer.trouble)
      else location.reload()
    })
    document.getElementById("note").append(" ", again)
  }
  back.hidden = false
  back.textContent = "‹ all documents"
  return new Promise(() => {})
}
