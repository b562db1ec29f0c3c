// The document as it would be written, what has changed of it since it was saved, and its other forms to download.
import { question } from "./app.js"
import { make } from "./draw.js"

const dialog = document.getElementById("source")
const text = dialog.querySelector("pre")
const about = dialog.querySelector(".about")
const isChanges = dialog.querySelector("input")

export function showSource() {
  dialog.showModal()
  fill()
}

async function fill() {
  about.textContent = "…"
  text.replaceChildren()
  await (isChanges.checked ? fillChanges() : fillSource())
}

async function fillSource() {
  const answer = await question("source")
  if (!answer) return dialog.close()
  about.textContent = answer.more ? "The front of the document, as Save would write it." : "The document as Save would write it."
  text.textContent = answer.text
}

async function fillChanges() {
  const answer = await question("unsaved")
  if (!answer) return dialog.close()
  about.textContent = answer.changes.length ? "Green is new, red is gone." : "Nothing has changed since it was saved."
  text.replaceChildren(...answer.changes.map(([kind, part]) => (kind ? make(kind === "new" ? "ins" : "del", "", part) : part)))
}
isChanges.addEventListener("change", fill)

// A form of the document, as a file.
for (const button of dialog.querySelectorAll("[data-kind]")) {
  button.addEventListener("click", async () => {
    const answer = await question("download", { kind: button.dataset.kind })
    if (!answer) return
    const link = document.createElement("a")
    link.href = URL.createObjectURL(new Blob([answer.text], { type: answer.type }))
    link.download = answer.name
    link.click()
    setTimeout(() => URL.revokeObjectURL(link.href), 10000)
  })
}
