// ---- characters that can't be seen, or turn the direction of writing ----

// Controls but tab and line feed, formats, what is drawn as nothing, blanks that aren't the one of the keyboard, and halves of a pair.
const UNSEEN = /[\p{Cc}\p{Cf}\p{Cs}\p{Default_Ignorable_Code_Point}\p{Zl}\p{Zp}\u2800]|(?! )\p{Zs}/gu;
const TURNS = /[\u061c\u200e\u200f\u202a-\u202e\u2066-\u2069]/;

const codeOf = character => 'U+' + character.codePointAt(0).toString(16).toUpperCase().padStart(4, '0');
const whatOf = character => TURNS.test(character) ? 'turns the direction of writing'
  : /\p{Cs}/u.test(character) ? 'is half a character, and is taken as U+FFFD'
    : /\p{Zs}/u.test(character) ? "is a blank that no script takes for one" : "can't be seen";

// The places of such characters in a string: [from, to, character].
function unseenIn(string) {
  const found = [];
  for (const it of string.matchAll(UNSEEN)) if (it[0] !== '\t' && it[0] !== '\n') found.push([it.index, it.index + it[0].length, it[0]]);
  return found;
}

// A text as nodes, in which each such character stands as its code.
function visible(string) {
  const parts = [];
  let at = 0;
  for (const [from, to, character] of unseenIn(string)) {
    parts.push(string.slice(at, from), make('span', { className: 'code', title: `${codeOf(character)} ${whatOf(character)}` }, codeOf(character)));
    at = to;
  }
  return [...parts, string.slice(at)].filter(part => part !== '');
}

// What stands below the editor where the script has such characters: the first places, and a way to each.
function tellUnseen(lines) {
  const found = [];
  let all = 0, start = 0;
  for (const [n, line] of lines.entries()) {
    for (const [from, to, character] of unseenIn(line)) {
      all++;
      const column = found.length < 5 ? [...line.slice(0, from)].length + 1 : 0;
      if (column) found.push({ line: n + 1, column, character, start: start + from, length: to - from });
    }
    start += line.length + 1;
  }
  const notice = $('unseen');
  notice.hidden = !all;
  notice.replaceChildren();
  if (!all) return;
  notice.append(make('p', {}, make('b', {}, all === 1 ? "A character of this script isn't what it looks like: "
    : `${number(all)} characters of this script aren't what they look like: `)), ...found.map(it => make('p', {},
    button(`${it.line}:${it.column}`, () => goTo(it), 'small'), ` ${codeOf(it.character)}, which ${whatOf(it.character)}`)));
}
