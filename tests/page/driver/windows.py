"""The windows in which the page has to be whole, and what is wrong with how it lies there."""

WINDOWS = ((1400, 900), (1366, 625), (1024, 600), (800, 600), (400, 800))
LAPTOPS = ((1400, 900), (1366, 625), (1280, 720), (1024, 600))
# Which of the things in a row overlap, or are not in the window.
OVERLAPS = """
(() => {
  const all = [...document.querySelectorAll("#galluspa .transport > *, #galluspa .keys button, #galluspa .choices button, #galluspa .last > *, #galluspa .top > *, #g-verdicts > *, #g-mode > *")]
    .filter((it) => it.checkVisibility() && it.getBoundingClientRect().width > 1);
  const box = (it) => it.getBoundingClientRect(), found = [];
  for (const one of all) {
    if (box(one).right > innerWidth + 0.5 || box(one).bottom > innerHeight + 0.5) found.push(`outside: ${one.outerHTML.slice(0, 60)}`);
    for (const other of all) {
      const a = box(one), b = box(other), isIn = one.contains(other) || other.contains(one);
      if (one !== other && !isIn && Math.min(a.right, b.right) - Math.max(a.left, b.left) > 1 && Math.min(a.bottom, b.bottom) - Math.max(a.top, b.top) > 1)
        found.push(`${one.outerHTML.slice(0, 60)} overlaps ${other.outerHTML.slice(0, 60)}`);
    }
  }
  return found;
})()
"""
# Whether an element is in sight as a whole: at its corners nothing else lies over it, and its text is not cut.
WHOLE = """(it) => {
  const { left, right, top, bottom } = it.getBoundingClientRect(), inside = 4;
  const corners = [[left + inside, top + inside], [right - inside, top + inside], [left + inside, bottom - inside], [right - inside, bottom - inside]];
  return it.scrollHeight <= it.clientHeight + 1 && corners.every(([x, y]) => it.contains(document.elementFromPoint(x, y)));
}"""
