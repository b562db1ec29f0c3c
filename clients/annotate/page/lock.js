// Whether the text is locked: then keys go to menus alone, and what would change a character says so.
import { tell } from "./app.js"
import { field } from "./field.js"

const button = document.getElementById("lock")
const SAID = "The text is locked: nothing was typed. “Text locked”, in the head, unlocks it."

let locked = true
export const isLocked = () => locked

// Called where it was locked, or unlocked.
let then = () => {}
export const onLocked = (call) => (then = call)

export function setLocked(is) {
  locked = is
  field.readOnly = is
  document.body.dataset.text = is ? "locked" : "unlocked"
  button.ariaChecked = String(is)
  button.textContent = is ? "Text locked" : "Text unlocked"
  tell("")
  then()
}

// Says so, until the next key or click that does something.
export function sayLocked() {
  tell(SAID, true)
}

button.addEventListener("click", () => setLocked(!locked))
