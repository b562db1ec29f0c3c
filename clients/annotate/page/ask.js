// Asks the program. Each answer is JSON; `gone` is called where the program doesn't answer any more.

// What this window is called among those of the program.
export const window_ = crypto.randomUUID()
let gone = () => {}

export const whenGone = (call) => (gone = call)
export class Gone extends Error {}

export async function ask(name, what = {}) {
  let answer
  try {
    answer = await fetch(name, { method: "POST", headers: { "Content-Type": "application/json" }, body: JSON.stringify({ ...what, window: window_ }) })
  } catch {
    gone()
    throw new Gone()
  }
  if (!answer.ok) throw new Error(await answer.text())
  return answer.json()
}

export const hello = (what = {}) => ask("hello", what)

// What is told when the window goes.
let atBye = () => ({})
export const beforeBye = (call) => (atBye = call)
export function sayBye() {
  fetch("bye", { method: "POST", keepalive: true, headers: { "Content-Type": "application/json" }, body: JSON.stringify({ ...atBye(), window: window_ }) })
}
