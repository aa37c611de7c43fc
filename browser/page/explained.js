// What a refusal says, in sentences.

// For the refusals of nesting, figure and output, of which the library says no more than the number.
function nestingSentence(number, record) {
  if (number === 9) {
    return `Nesting the record's ${several(record.regions.length, "region")} would define too much. Fewer ways that cross each other, ` +
      "fewer values passed, or two routines in place of one, would be allowed.";
  }
  if (number === 10) return `The sheet has more than the ${NUMBERS.USUAL_LENT.toLocaleString("en-US")} words that are lent.`;
  const dear = record.regions.map((region, place) => [region.limit, place]).filter(([limit]) => limit > 1);
  dear.sort(([a, one], [b, other]) => b - a || other - one);
  const limits = dear.slice(0, 4).map(([limit, place]) => `region ${place} ${limit.toLocaleString("en-US")}`).join(", ");
  return `Turn limits are multiplied along nested loops; the greatest are: ${limits || "none above 1"}. Smaller limits would be allowed.`;
}

// What a refusal says, and its line in a source. `made` is what a source was assembled to, or null; `text` is the record's, or empty.
function explainedRefusal([number, word], made, text) {
  const told = `Refusal ${number}: ${RULES[number]}.`;
  if (number > 8) {
    const { record } = made || readSource(new TextEncoder().encode(text));
    const sentence = nestingSentence(number, record);
    return { text: `${told} ${made ? withNames(sentence, made.names) : sentence}` };
  }
  const found = made && placeOf(made.record);
  if (!found || found.number !== number || found.word !== word) return { text: told };
  return { text: `${told} ${withNames(found.sentence, made.names)}`, line: found.line };
}
