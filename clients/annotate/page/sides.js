// What stands beside the document: one panel at a time, each with the button that shows it.
import { listeners } from "./app.js"
import { rest } from "./choose.js"

const panels = new Map()

// A panel that is filled when it is shown, and after each change; gives what shows or hides it.
export function panel(id, opener, fill) {
  const box = document.getElementById(id)
  panels.set(box, document.getElementById(opener))
  box.querySelector("header button").addEventListener("click", () => {
    show(null)
    rest()
  })
  listeners.push((changed) => changed && !box.hidden && fill(box))
  const toggle = () => {
    show(box.hidden ? box : null)
    if (!box.hidden) fill(box)
  }
  toggles.set(id, toggle)
  return toggle
}
const toggles = new Map()

// The panel that is open, and to open one.
export const openPanel = () => [...panels.keys()].find((box) => !box.hidden)?.id ?? null
export function showPanel(id) {
  if (openPanel() !== id) toggles.get(id)?.()
}

function show(panel) {
  for (const [each, button] of panels) {
    each.hidden = each !== panel
    button.setAttribute("aria-expanded", String(!each.hidden))
  }
}
