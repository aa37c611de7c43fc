"""In Chromium the compiled library answers every store of the fixed lists as the lists say, and as the native library does.

Compared are the refusal or every word of the sheet, the texts; and by CRC-32 all lent words and the state.
"""

import base64
import pathlib
import tempfile
import zlib

from .support import InBrowser, PAGE, ROOT, batches, needs_browser, needs_page

from generate.library import LENT, STATE, Library, Missing, linked
from generate.vectors import all_vectors

LISTS = ROOT / "beside" / "lists"
FOLDER = ROOT / "target" / "interface"
WRONG = {"wrong": 7, "wrong-nest": 9}  # answers that are wrong on purpose, by the word that marks them

# In the browser: keeps the pattern that lent memory has before each call, and a sum over bytes that Python has too.
PREPARE = """
const bytesOf = text => Uint8Array.from(atob(text), letter => letter.charCodeAt(0));
const [state, out] = [...arguments].map(bytesOf), table = Array.from({ length: 256 }, (_, n) => {
  for (let k = 0; k < 8; k++) n = n & 1 ? (n >>> 1) ^ 0xedb88320 : n >>> 1;
  return n >>> 0;
});
const sum = words => {
  const bytes = new Uint8Array(words.buffer, words.byteOffset, words.byteLength);
  let made = 0xffffffff;
  for (let k = 0; k < bytes.length; k++) made = table[(made ^ bytes[k]) & 255] ^ (made >>> 8);
  return (made ^ 0xffffffff) >>> 0;
};
window.tried = library => hex => {
  const store = Uint8Array.from(hex.match(/../g) || [], byte => parseInt(byte, 16)), lent = out.length / 4;
  const accepted = library.accept(store);
  library.lend(store, lent);
  library.stateWords().set(new Uint16Array(state.buffer));
  library.outWords(lent).set(new Uint32Array(out.buffer));
  const { words, refused } = library.nest(store, lent);
  return {
    record: accepted.words ? rukvetta.recordText(accepted.words) : rukvetta.refusalText(accepted.refused),
    sheet: words ? rukvetta.sheetText(words) : rukvetta.refusalText(refused),
    words: Array.from(words || [], word => word.toString(16).padStart(8, "0")).join(""),
    sums: [sum(library.stateWords()), sum(library.outWords(lent))],
  };
};"""
TRY = """const [stores, done] = arguments;
rukvetta.ready.then(library => done(stores.map(tried(library))), error => done(String(error)));"""


class Native:
    """The native library, where interface/build has made it."""

    def __init__(self, folder: pathlib.Path) -> None:
        self.library = Library(linked(FOLDER, folder))

    def answer(self, store: bytes) -> tuple[str, list[int]]:
        """The refusal, or the words of the sheet; and sums over all words of state and sheet."""
        number, word = self.library.answer(store, LENT)
        said = f"refused {number} {word}\n" if number else "".join(f"{one:08x}" for one in self.library.sheet(word))
        lent = memoryview(self.library.out).cast("B")[: 4 * LENT]
        return said, [zlib.crc32(memoryview(self.library.state).cast("B")), zlib.crc32(lent)]


@needs_browser
@needs_page
class Lists(InBrowser):
    @classmethod
    def setUpClass(cls) -> None:
        super().setUpClass()
        cls.complaints = cls.browser.open(str(PAGE))
        cls.browser.driver.set_script_timeout(300)
        held = tempfile.TemporaryDirectory()
        cls.addClassCleanup(held.cleanup)
        try:
            cls.native = Native(pathlib.Path(held.name))
        except Missing as told:
            cls.native = None
            cls.absent = str(told)
            pattern = bytes(range(256)) * 1024
            cls.lend(pattern[: 2 * STATE], pattern[: 4 * LENT])
        else:
            cls.lend(cls.native.library.state_was, cls.native.library.out_was[: 4 * LENT])

    @classmethod
    def lend(cls, state: bytes, out: bytes) -> None:
        cls.browser.run(PREPARE, *(base64.b64encode(part).decode("ascii") for part in (state, out)))

    def tried(self, name: str) -> list[tuple[str, bytes, str, dict]]:
        """Each vector of a list with what the browser says."""
        vectors = list(all_vectors(LISTS / f"{name}.vectors"))
        told = []
        for batch in batches([store.hex() for _, store, _ in vectors]):
            told += self.browser.driver.execute_async_script(TRY, batch)
        return [(*vector, answer) for vector, answer in zip(vectors, told, strict=True)]

    @staticmethod
    def agrees(word: str, answer: str, told: dict, of: str) -> bool:
        """Whether the browser says what a vector has: the text, and for `nest` the words too."""
        if word.endswith("nest"):
            words, _, answer = answer.partition("\n")
            return (words, answer) == (told["words"], told["sheet"])
        return answer == told[of]

    def compare(self, name: str, of: str) -> dict[str, int]:
        """How many vectors of each word there are; all agree but those that are wrong on purpose."""
        counts: dict[str, int] = {}
        for word, store, answer, told in self.tried(name):
            counts[word] = counts.get(word, 0) + 1
            self.assertEqual(self.agrees(word, answer, told, of), word not in WRONG, (word, store.hex(), answer[:500], told))
            if self.native:
                self.assertEqual((told["words"] or told["sheet"], told["sums"]), self.native.answer(store), store.hex())
        return counts

    def test_the_page_has_no_complaint(self) -> None:
        self.assertEqual(self.complaints, [])

    def test_stores(self) -> None:
        counts = self.compare("stores", "record")
        self.assertEqual((counts["store"] + counts["wrong"], counts["nest"] + counts["wrong-nest"]), (2030, 2249))
        self.assertEqual({word: counts[word] for word in WRONG}, WRONG)

    def test_sheets(self) -> None:
        self.assertEqual(self.compare("sheets", "sheet"), {"store": 1147})
        self.assertEqual(self.compare("full", "sheet"), {"store": 3})

    def test_the_native_library_was_there(self) -> None:
        if not self.native:
            self.skipTest(f"the lists alone were compared: {self.absent}")
