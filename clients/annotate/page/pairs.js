// Attributes as they are typed in one line: key="adams" type=x, each a name and a value.

export const pairsText = (pairs) => pairs.map(([name, value]) => `${name}="${value}"`).join(" ")

const PAIR = /\s*([^\s="']+)\s*=\s*(?:"([^"]*)"|'([^']*)'|([^\s"']*))(?=\s|$)/y

// The pairs of a line; none where it is something else.
export function pairsOf(text) {
  const pairs = []
  PAIR.lastIndex = 0
  let end = 0
  for (let found; (found = PAIR.exec(text)); end = PAIR.lastIndex) pairs.push([found[1], found[2] ?? found[3] ?? found[4]])
  return text.slice(end).trim() === "" ? pairs : null
}
