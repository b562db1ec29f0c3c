// Looks for a pattern in a text, in a worker: one that takes forever is ended, and the page goes on meanwhile.
addEventListener("message", ({ data: { text, pattern, most } }) => {
  const found = []
  for (const match of text.matchAll(pattern)) {
    if (match[0]) found.push([match.index, match.index + match[0].length])
    if (found.length === most) break
  }
  postMessage(found)
})
