// The proved routines, compiled for WebAssembly. The memory that they are lent stands behind the module's own stack.

const PAGE_BYTES = 65536;

class Library {
  constructor(instance) {
    this.calls = instance.exports;
    this.state = (this.calls.__heap_base.value + 15) & ~15;
    this.out = (this.state + 2 * NUMBERS.WORDS + 15) & ~15;
  }

  // Put a store behind the words that are lent for a sheet; where it stands.
  lend(bytes, lent) {
    const at = this.out + 4 * lent, lacking = at + bytes.length - this.calls.memory.buffer.byteLength;
    if (lacking > 0) this.calls.memory.grow(Math.ceil(lacking / PAGE_BYTES));
    new Uint8Array(this.calls.memory.buffer, at, bytes.length).set(bytes);
    return at;
  }

  stateWords() {
    return new Uint16Array(this.calls.memory.buffer, this.state, NUMBERS.WORDS);
  }

  outWords(lent) {
    return new Uint32Array(this.calls.memory.buffer, this.out, lent);
  }

  // The words of a store's record, or its refusal: number and word.
  accept(bytes) {
    const answer = this.calls.rukvetta_accept(this.lend(bytes, 0), BigInt(bytes.length), this.state) >>> 0;
    if (answer) return { refused: [answer >>> 16, answer & 65535] };
    const words = this.stateWords();
    return { words: words.slice(0, words[0]) };
  }

  // The words of a store's sheet, or its refusal. As many words are lent for it as the program `nest` lends.
  nest(bytes, lent = NUMBERS.USUAL_LENT) {
    const at = this.lend(bytes, lent);
    const answer = BigInt.asUintN(64, this.calls.rukvetta_nest(at, BigInt(bytes.length), this.state, this.out, BigInt(lent)));
    const [number, word] = [Number(answer >> 32n), Number(answer & 0xffffffffn)];
    return number ? { refused: [number, word] } : { words: this.outWords(lent).slice(0, word) };
  }
}

async function loadLibrary() {
  const bytes = Uint8Array.from(atob(MODULE), letter => letter.charCodeAt(0));
  return new Library((await WebAssembly.instantiate(bytes)).instance);
}
