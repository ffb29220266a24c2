/** The examples of a document in blocks that have this tag and this word, as a script that tells `equals` and `fails`. What an
 * example gives stands after it. */
export function scriptOf(document, tag, word) {
  const blocks = [...document.matchAll(/^```(\w+)\n(.*?)^```$/gms)].filter((it) => it[1] === tag && it[2].includes(word));
  return blocks.map((it) => it[2]).join("")
    .replace(/^(.*); \/\/ throws (\w+)$/gm, (_, call, name) => `fails(() => ${call}, "${name}");`)
    .replace(/^(?!const )(.*); \/\/ (.*)$/gm, (_, call, result) => `equals(${call}, ${result});`);
}
