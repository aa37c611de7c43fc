// The editor: a text area, with line numbers beside it and, below its letters, marks where the faults are.

const WORD_AT = new RegExp(`^[${LETTER}.\\-]+|^[^${BLANK}]`, "u");

class Editor {
  constructor(place, changed) {
    [this.area, this.gutter, this.marks] = ["textarea", ".gutter", ".marks"].map(name => place.querySelector(name));
    this.area.addEventListener("input", () => changed());
    this.area.addEventListener("scroll", () => this.follow());
  }

  get text() {
    return this.area.value;
  }

  set text(text) {
    this.area.value = text;
    this.area.scrollTo(0, 0);
    this.area.setSelectionRange(0, 0);
  }

  follow() {
    this.gutter.style.transform = `translateY(${-this.area.scrollTop}px)`;
    this.marks.style.transform = `translate(${-this.area.scrollLeft}px, ${-this.area.scrollTop}px)`;
  }

  // Draw the line numbers and the marks of these faults.
  mark(faults) {
    const lines = this.text.split("\n"), wrong = lines.map(() => []);
    faults.forEach(fault => wrong[fault.line - 1] && wrong[fault.line - 1].push(fault));
    this.gutter.replaceChildren(...lines.map((_, k) => part("span", wrong[k].length ? "wrong" : "", `${k + 1}\n`)));
    this.marks.replaceChildren(...lines.flatMap((line, k) => [...markedLine(line, wrong[k]), "\n"]));
    this.follow();
  }

  // Put the cursor at a place, and bring it into view.
  goTo(line, column) {
    const lines = this.text.split("\n"), before = lines.slice(0, line - 1).reduce((sum, text) => sum + text.length + 1, 0);
    const text = lines[line - 1] || "", from = front(text, column - 1).length;
    this.area.focus();
    this.area.setSelectionRange(before + from, before + from + wordAt(text.slice(from)).length);
    const tall = parseFloat(getComputedStyle(this.area).lineHeight);
    this.area.scrollTop = Math.max(0, (line - 1) * tall - this.area.clientHeight / 2);
  }
}

function part(name, className, text) {
  const made = document.createElement(name);
  [made.className, made.textContent] = [className, text];
  return made;
}

const wordAt = text => (WORD_AT.exec(text) || [""])[0];

// A line with a mark under the word at each fault, or behind the line's end.
function markedLine(line, faults) {
  const parts = [];
  let done = 0;
  for (const { column } of faults) {
    const from = front(line, column - 1).length, word = wordAt(line.slice(from)) || " ";
    if (from < done) continue;
    parts.push(line.slice(done, from), part("span", "fault", word));
    done = from + word.length;
  }
  return [...parts, line.slice(done)];
}
