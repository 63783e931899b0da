// ---- what further commands of the program will say: one place for each ----

// `explain`: the wanted and the found type in the advice at the mark. Today the sentence of the documents stands there.
function explainAtMark() {}

// `story`: what happened, entry by entry. Today these are the titles of the picture's marks; steps that nobody else sees are left out.
function storyOf(picture) {
  const titles = [...decoded(picture).matchAll(/<title>entry (\d+): ([^<]*)<\/title>/g)];
  const named = { lt: '<', gt: '>', quot: '"', apos: "'", amp: '&' };
  const plain = said => said.replace(/&(lt|gt|quot|apos|amp|#(\d+)|#x([0-9a-f]+));/gi, (_, name, decimal, hex) =>
    decimal ? String.fromCodePoint(decimal) : hex ? String.fromCodePoint(parseInt(hex, 16)) : named[name]);
  return titles.map(([, entry, said]) => ({ entry: Number(entry), said: plain(said) })).filter(it => !it.said.includes('makes local steps'));
}
