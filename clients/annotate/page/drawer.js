// A folder of documents: each with its verdict, what is missing, who has it open, and whether it is done.
import { ask, hello, sayBye, whenGone } from "./ask.js"
import { make, worded } from "./draw.js"

const body = document.querySelector("tbody")
const left = document.getElementById("left")
const note = document.getElementById("note")
// So often it is looked whether something has changed, in milliseconds; and more often as long as documents are being judged.
const PAUSE = 2000
const SOON = 300

const VERDICTS = {
  valid: "✓ valid", possible: "◦ not finished", impossible: "✕ can't be finished", refused: "✕ no document", unreadable: "can't be read",
  failed: "not judged", "no-dtd": "no DTD",
}
let rows = []
let shown = ""

function tell(text) {
  note.hidden = text === ""
  note.firstElementChild.textContent = text
}
note.lastElementChild.addEventListener("click", () => tell(""))
whenGone(() => tell("The program has ended. Each move is kept: start it again in the terminal, and open its address."))

// Asks, and tells what isn't to be; none then.
async function asked(name, what) {
  const answer = await ask(name, what)
  if (answer.trouble) tell(answer.trouble)
  return answer.trouble ? null : answer
}

let asking = 0
async function look() {
  clearTimeout(asking)
  const answer = document.hidden ? null : await asked("list")
  if (answer) {
    rows = answer.rows
    if (answer.why) tell(answer.why)
    if (JSON.stringify(rows) !== shown) draw()
  }
  const isJudging = !answer?.why && rows.some((row) => !row.is_text && !row.verdict)
  asking = setTimeout(lookAgain, isJudging ? SOON : PAUSE)
}
// Where the program doesn't answer any more, that was told.
const lookAgain = () => look().catch(() => {})

function draw() {
  shown = JSON.stringify(rows)
  const at = document.activeElement?.closest("tr")?.dataset.url
  const what = document.activeElement?.matches("input") ? "input" : "a, button"
  body.replaceChildren(...rows.filter(({ done }) => !left.checked || !done).map(rowOf))
  if (at !== undefined) body.querySelector(`tr[data-url="${CSS.escape(at)}"]`)?.querySelector(what)?.focus()
  const done = rows.filter((row) => row.done).length
  const valid = rows.filter((row) => row.verdict === "valid" && !row.faults).length
  document.getElementById("count").textContent = `${done} of ${rows.length} done, ${valid} valid`
  document.getElementById("onward").disabled = done === rows.length
  document.querySelector(".none").hidden = rows.length > 0
}

function rowOf(row) {
  const box = document.createElement("input")
  Object.assign(box, { type: "checkbox", checked: row.done, ariaLabel: `${row.name} is done` })
  box.addEventListener("change", () => mark(row, box))
  const made = make("tr", row.done ? "done" : "", make("td", "", box), make("td", "", ...nameOf(row)))
  made.dataset.url = row.url
  const verdict = make("td", "", row.is_text ? "plain text" : VERDICTS[row.verdict] ?? "…")
  if (row.verdict) verdict.dataset.verdict = row.verdict
  const faults = row.faults ? `${row.faults} missing or wrong` : row.faults === 0 ? "valid" : ""
  const by = row.by === "here" ? "in a window" : row.by === "you" ? "by you, elsewhere" : row.by ? `by ${row.by}` : ""
  made.append(verdict, make("td", "number", row.missing ? String(row.missing) : ""), make("td", "", faults), make("td", "", by))
  return made
}

function nameOf(row) {
  const link = make(row.is_text ? "button" : "a", "name", row.name)
  if (row.is_text) link.addEventListener("click", () => begin(row))
  else link.href = `${row.url}/`
  const sentence = row.verdict === "valid" && !row.faults ? "" : row.sentence
  const notes = [row.is_text && "a click begins a document of it", row.moves && "has moves that aren't saved"].filter(Boolean).map((text) => make("span", "note", text))
  return [link, ...(sentence ? [make("span", "note", ...worded(sentence))] : []), ...notes]
}

async function mark(row, box) {
  const answer = await asked("mark", { url: row.url, done: box.checked })
  if (!answer) box.checked = !box.checked
  lookAgain()
}

async function begin({ url }) {
  const answer = await asked("begin", { url })
  if (answer) location.href = `${answer.url}/`
}

left.checked = sessionStorage.getItem("left") === "true"
left.addEventListener("change", () => {
  sessionStorage.setItem("left", String(left.checked))
  draw()
})
document.getElementById("onward").addEventListener("click", () => {
  const next = rows.find(({ done }) => !done)
  if (next) begin(next)
})
addEventListener("pagehide", sayBye)
addEventListener("pageshow", (event) => event.persisted && hello().then(lookAgain))
addEventListener("focus", lookAgain)
document.addEventListener("visibilitychange", lookAgain)
const { title } = await hello()
document.getElementById("title").textContent = document.title = title
await look()
