// The page at work: a text or a store comes in; faults, or graph, nest, sheet, refusal and figure come out.

const FIRST = "sweep-markers", UNNAMED = "my-routine";
const $ = id => document.getElementById(id);

// What is known of a store: its texts for the drawing, its words, and whether it is refused.
function answered(library, store, names) {
  const accepted = library.accept(store), nested = library.nest(store);
  return {
    record: accepted.words ? recordText(accepted.words) : "", sheet: nested.words ? sheetText(nested.words) : refusalText(nested.refused),
    names: names ? names.lines() : "", words: accepted.words && accepted.words[0], refused: nested.refused || null,
  };
}

// A sheet in a few words: its outcome and its figure, or its refusal.
function stateText({ sheet, refused }) {
  const [outcome, , figure] = sheet.split("\n")[0].split(" ");
  return refused ? sheet.trim() : outcome + (figure === "-" ? "" : `, figure ${Number(figure).toLocaleString("en-US")}`);
}

const firstColumn = (text, line) => lengthOf(/^[ \t]*/.exec(text.split("\n")[line - 1])[0]) + 1;

class Page {
  constructor(library) {
    [this.library, this.name, this.store, this.waiting, this.kept, this.drawn] = [library, UNNAMED, null, false, "", ""];
    this.editor = new Editor(document.querySelector(".editor"), () => this.changed());
    this.fillCatalogue();
    this.listen();
    this.take(CATALOGUE[FIRST], FIRST);
  }

  fillCatalogue() {
    const names = Object.keys(CATALOGUE);
    $("catalogue").append(new Option("choose", "", true, true), ...names.map(name => new Option(name, name)));
    $("catalogue").options[0].disabled = true;
  }

  listen() {
    $("catalogue").addEventListener("change", ({ target }) =>
      target.value === UNNAMED ? this.take(this.kept, UNNAMED) : this.take(CATALOGUE[target.value], target.value));
    $("open").addEventListener("change", ({ target }) => {
      if (target.files.length) this.open(target.files[0]);
      target.value = "";
    });
    $("open-label").addEventListener("keydown", event => ["Enter", " "].includes(event.key) && $("open").click());
    $("save-store").addEventListener("click", () => download(this.store, this.name + ".store"));
    $("save-source").addEventListener("click", () => download(new TextEncoder().encode(this.editor.text), this.name + ".routine"));
    for (const type of ["dragover", "dragleave", "drop"]) {
      document.addEventListener(type, event => {
        event.preventDefault();
        document.body.classList.toggle("dropping", type === "dragover");
        if (type === "drop" && event.dataTransfer.files.length) this.open(event.dataTransfer.files[0]);
      });
    }
  }

  // A file is a source by its ending; one with another ending, if it has no zero byte.
  async open(file) {
    const bytes = new Uint8Array(await file.slice(0, MOST_BYTES + 1).arrayBuffer());
    const [, name, ending] = /^(.*?)(\.[^.]*)?$/s.exec(file.name);
    if (ending === ".routine" || (ending !== ".store" && bytes.length && !bytes.includes(0))) this.takeSource(bytes, name);
    else this.takeStore(bytes, name);
  }

  // Put another text into the editor. One that was written here can be had back from the catalogue's list.
  replace(text, name) {
    const catalogue = $("catalogue");
    if (![this.taken, this.kept, ""].includes(this.editor.text)) {
      this.kept = this.editor.text;
      if (![...catalogue.options].some(option => option.value === UNNAMED)) catalogue.add(new Option("what I wrote", UNNAMED), 1);
    }
    this.editor.text = text;
    [this.name, this.taken, this.drawn] = [name, this.editor.text, ""];         // with the line ends that a text area has
    catalogue.value = name === UNNAMED || CATALOGUE[name] === text ? name : "";
  }

  take(text, name) {
    this.replace(text, name);
    this.assemble(new TextEncoder().encode(text));
  }

  // A source's own bytes are assembled, so that a byte which is no text is told.
  takeSource(bytes, name) {
    this.replace(decoded(bytes)[0], name);
    this.assemble(bytes);
  }

  // A store's record becomes the text; the store is nested as it is.
  takeStore(bytes, name) {
    const told = answered(this.library, bytes, null);
    this.replace(told.record, name);
    this.answer(bytes, told, null);
  }

  // Typing is answered in the next frame, however many letters came. A routine of the catalogue that is changed is no longer that one.
  changed() {
    if ($("catalogue").value) this.name = UNNAMED;
    $("catalogue").value = "";
    if (this.waiting) return;
    this.waiting = true;
    requestAnimationFrame(() => {
      this.waiting = false;
      this.assemble(new TextEncoder().encode(this.editor.text));
    });
  }

  assemble(bytes) {
    try {
      const made = assemble(bytes);
      this.answer(made.store, answered(this.library, made.store, made.names), made);
    } catch (faults) {
      if (!(faults instanceof Faults)) throw faults;
      this.tell(faults.found);
    }
  }

  // Show the faults; the picture of the text before stays, pale.
  tell(faults) {
    this.store = null;
    this.editor.mark(faults.slice(0, MOST_TOLD));
    const rows = faults.slice(0, MOST_TOLD).map(fault => this.row(fault, `line ${fault.line}, column ${fault.column}: ${fault.message}`));
    if (faults.length > MOST_TOLD) rows.push(part("li", "", `${faults.length - MOST_TOLD} faults more`));
    this.told(rows, faults.length === 1 ? "1 fault" : `${faults.length} faults`, true);
  }

  row({ line, column }, text) {
    const item = part("li", "", ""), button = part("button", "", text);
    button.type = "button";
    button.addEventListener("click", () => this.editor.goTo(line, column));
    item.append(button);
    return item;
  }

  told(rows, state, wrong) {
    $("faults").replaceChildren(...rows);
    $("state").textContent = state;
    $("state").classList.toggle("wrong", wrong);
    $("result").classList.toggle("old", !this.store && Boolean($("result").children.length));
    $("save-store").disabled = !this.store;
  }

  // Show what the library answers to a store.
  answer(store, told, made) {
    this.store = store;
    const { text = "", line } = told.refused ? explainedRefusal(told.refused, made, told.record) : {};
    const places = line ? [{ line, column: firstColumn(this.editor.text, line) }] : [];
    this.editor.mark(places);
    this.told(places.map(place => this.row(place, `line ${line}: ${text}`)), stateText(told), Boolean(told.refused));
    this.draw({ ...told, explained: text }, { title: this.name, words: told.words });
  }

  // Draw, unless just this is drawn already: a comment that is written changes nothing.
  draw(texts, options) {
    const drawn = JSON.stringify([texts, options]), views = this.drawn ? this.views() : [];
    if (drawn === this.drawn) return;
    this.drawn = drawn;
    $("result").replaceChildren();
    drawRoutine($("result"), texts, options);
    this.look(views);
  }

  // How the pictures are zoomed and scrolled, and the same again for new ones. Those of another routine begin in the middle.
  views() {
    return [...document.querySelectorAll("#result .scroll")].map(scroll =>
      ({ zoom: scroll.firstChild.style.getPropertyValue("--zoom"), left: scroll.scrollLeft, top: scroll.scrollTop }));
  }

  look(views) {
    document.querySelectorAll("#result .scroll").forEach((scroll, k) => {
      const { zoom, left, top } = views[k] || { left: (scroll.scrollWidth - scroll.clientWidth) / 2, top: 0 };
      if (zoom) {
        scroll.firstChild.classList.add("zoomed");
        scroll.firstChild.style.setProperty("--zoom", zoom);
      }
      [scroll.scrollLeft, scroll.scrollTop] = [left, top];
    });
  }
}

function download(bytes, name) {
  const link = document.createElement("a");
  link.href = URL.createObjectURL(new Blob([bytes], { type: "application/octet-stream" }));
  link.download = name;
  link.click();
  setTimeout(() => URL.revokeObjectURL(link.href), 1000);
}

// What the tests call: the same functions as the page.
window.rukvetta = { assemble, Faults, placeOf, withNames, recordText, sheetText, refusalText, ready: loadLibrary() };
window.rukvetta.ready.then(library => { window.rukvetta.page = new Page(library); }, error => {
  $("state").textContent = `The compiled library does not run in this browser: ${error.message}`;
  $("state").classList.add("wrong");
});
