// A third reading of the rules (docs/RULES.md), in a language that a phone understands: what a text of a drawn
// round has to be, whether its key and its tables follow, and how tiebreakers come about. It asks nobody, and
// sends nothing. check_page.py puts it into docs/check.html as it stands here.
"use strict";

class NoText extends Error {}

function need(isSo, why) {
  if (!isSo) throw new NoText(why);
}

// ---- SHA-256 (FIPS 180-4). A page that was not loaded over https has no crypto.subtle.

const SHA_CONSTANTS = [
  0x428a2f98, 0x71374491, 0xb5c0fbcf, 0xe9b5dba5, 0x3956c25b, 0x59f111f1,
  0x923f82a4, 0xab1c5ed5, 0xd807aa98, 0x12835b01, 0x243185be, 0x550c7dc3,
  0x72be5d74, 0x80deb1fe, 0x9bdc06a7, 0xc19bf174, 0xe49b69c1, 0xefbe4786,
  0x0fc19dc6, 0x240ca1cc, 0x2de92c6f, 0x4a7484aa, 0x5cb0a9dc, 0x76f988da,
  0x983e5152, 0xa831c66d, 0xb00327c8, 0xbf597fc7, 0xc6e00bf3, 0xd5a79147,
  0x06ca6351, 0x14292967, 0x27b70a85, 0x2e1b2138, 0x4d2c6dfc, 0x53380d13,
  0x650a7354, 0x766a0abb, 0x81c2c92e, 0x92722c85, 0xa2bfe8a1, 0xa81a664b,
  0xc24b8b70, 0xc76c51a3, 0xd192e819, 0xd6990624, 0xf40e3585, 0x106aa070,
  0x19a4c116, 0x1e376c08, 0x2748774c, 0x34b0bcb5, 0x391c0cb3, 0x4ed8aa4a,
  0x5b9cca4f, 0x682e6ff3, 0x748f82ee, 0x78a5636f, 0x84c87814, 0x8cc70208,
  0x90befffa, 0xa4506ceb, 0xbef9a3f7, 0xc67178f2,
];
const SHA_BEGINNING = [
  0x6a09e667, 0xbb67ae85, 0x3c6ef372, 0xa54ff53a,
  0x510e527f, 0x9b05688c, 0x1f83d9ab, 0x5be0cd19,
];

function turned(word, bits) {
  return (word >>> bits) | (word << (32 - bits));
}

function sha256(bytes) {
  const length = bytes.length;
  const padded = new Uint8Array(((length + 9 + 63) >> 6) << 6);
  padded.set(bytes);
  padded[length] = 0x80;
  const view = new DataView(padded.buffer);
  view.setUint32(padded.length - 8, Math.floor(length / 0x20000000));
  view.setUint32(padded.length - 4, (length * 8) >>> 0);
  const state = SHA_BEGINNING.slice();
  const words = new Uint32Array(64);
  for (let block = 0; block < padded.length; block += 64) {
    for (let i = 0; i < 16; i += 1) words[i] = view.getUint32(block + 4 * i);
    for (let i = 16; i < 64; i += 1) {
      const two = words[i - 2];
      const fifteen = words[i - 15];
      const small1 = turned(two, 17) ^ turned(two, 19) ^ (two >>> 10);
      const small0 = turned(fifteen, 7) ^ turned(fifteen, 18) ^ (fifteen >>> 3);
      words[i] = words[i - 16] + small0 + words[i - 7] + small1;
    }
    let [a, b, c, d, e, f, g, h] = state;
    for (let i = 0; i < 64; i += 1) {
      const big1 = turned(e, 6) ^ turned(e, 11) ^ turned(e, 25);
      const choice = (e & f) ^ (~e & g);
      const one = (h + big1 + choice + SHA_CONSTANTS[i] + words[i]) >>> 0;
      const big0 = turned(a, 2) ^ turned(a, 13) ^ turned(a, 22);
      const majority = (a & b) ^ (a & c) ^ (b & c);
      const other = (big0 + majority) >>> 0;
      [a, b, c, d, e, f, g, h] = [(one + other) >>> 0, a, b, c, (d + one) >>> 0, e, f, g];
    }
    [a, b, c, d, e, f, g, h].forEach((word, i) => { state[i] = (state[i] + word) >>> 0; });
  }
  return state.map((word) => word.toString(16).padStart(8, "0")).join("");
}

function bytesOf(text) {
  return new TextEncoder().encode(text);
}

// ---- ChaCha20 (RFC 8439), from block 0 on, with a nonce of zeros

function wordsOf(key, count) {
  const start = [0x61707865, 0x3320646e, 0x79622d32, 0x6b206574];
  for (let i = 0; i < 8; i += 1) {
    const bytes = key.slice(8 * i, 8 * i + 8).match(/../g).map((byte) => parseInt(byte, 16));
    start.push((bytes[0] | (bytes[1] << 8) | (bytes[2] << 16) | (bytes[3] << 24)) >>> 0);
  }
  const words = [];
  for (let block = 0; words.length < count; block += 1) {
    const state = [...start, block, 0, 0, 0];
    const now = state.slice();
    const mix = (to, by, turns, bits) => {
      now[to] = (now[to] + now[by]) >>> 0;
      const mixed = now[turns] ^ now[to];
      now[turns] = ((mixed << bits) | (mixed >>> (32 - bits))) >>> 0;
    };
    const quarter = (a, b, c, d) => {
      mix(a, b, d, 16);
      mix(c, d, b, 12);
      mix(a, b, d, 8);
      mix(c, d, b, 7);
    };
    for (let round = 0; round < 10; round += 1) {
      for (let i = 0; i < 4; i += 1) quarter(i, 4 + i, 8 + i, 12 + i);
      for (let i = 0; i < 4; i += 1) quarter(i, 4 + ((i + 1) % 4), 8 + ((i + 2) % 4), 12 + ((i + 3) % 4));
    }
    now.forEach((word, i) => words.push((word + state[i]) >>> 0));
  }
  return words.slice(0, count);
}

// ---- the two lists of `export`

// The fields of a row. A name may hold any letter but a control character, so a row is a line.
function fieldsOf(line) {
  const fields = [];
  let at = 0;
  while (at <= line.length) {
    if (line[at] === '"') {
      let field = "";
      at += 1;
      while (line[at] !== '"' || line[at + 1] === '"') {
        need(at < line.length, "a name has no end");
        at += line[at] === '"' ? 1 : 0;
        field += line[at];
        at += 1;
      }
      at += 1;
      need(at === line.length || line[at] === ",", "there is more behind a name");
      fields.push(field);
    } else {
      const end = line.indexOf(",", at) < 0 ? line.length : line.indexOf(",", at);
      need(!line.slice(at, end).includes('"'), "a name is quoted in its middle");
      fields.push(line.slice(at, end));
      at = end;
    }
    at += 1;
  }
  return fields;
}

function whole(text, most) {
  need(/^(0|[1-9][0-9]{0,5})$/.test(text) && Number(text) <= most, "a number is none");
  return Number(text);
}

function rowsOf(lines, heading) {
  need(lines[0] === heading, `the heading ${heading} is missing`);
  return lines.slice(1).map(fieldsOf);
}

function playersOf(lines) {
  return rowsOf(lines, "no,name,dropped").map(([number, name, dropped, ...more], at) => {
    need(more.length === 0 && whole(number, 512) === at + 1, "the players are not in their order");
    need(dropped === "0" || dropped === "1", "a player has dropped or not");
    return { number: at + 1, name, hasDropped: dropped === "1" };
  });
}

// Rounds as lists of matches: table, both numbers (0 for the bye's), and the score or null.
function roundsOf(lines, players) {
  const rounds = [];
  for (const fields of rowsOf(lines, "round,table,a,b,x,y,d")) {
    need(fields.length === 7, "a match has another length");
    const [round, table, first, second] = fields.slice(0, 4).map((field) => whole(field, 512));
    if (round === rounds.length + 1) rounds.push([]);
    need(round === rounds.length, "the rounds are not in their order");
    need(first >= 1 && first <= players.length && second <= players.length, "a match has no such player");
    const isOpen = fields.slice(4).every((field) => field === "");
    const score = isOpen ? null : fields.slice(4).map((field) => whole(field, 9));
    rounds[round - 1].push({ table, first, second, score });
  }
  return rounds;
}

// ---- the pairing

const MOST_STEPS = 1000000;

function pointsOf(own, others) {
  if (own > others) return 3;
  return own === others ? 1 : 0;
}

// The tables that the rules give to the active players by a key, or null.
function pairing(players, rounds, key) {
  const active = players.filter((player) => !player.hasDropped).map((player) => player.number);
  const words = wordsOf(key, active.length);
  const wordOf = new Map(active.map((number, at) => [number, words[at]]));
  const points = new Map(active.map((number) => [number, 0]));
  const met = new Set();
  for (const match of rounds.flat()) {
    const [x, y] = match.score;
    points.set(match.first, (points.get(match.first) || 0) + pointsOf(x, y));
    points.set(match.second, (points.get(match.second) || 0) + pointsOf(y, x));
    met.add(`${match.first} ${match.second}`).add(`${match.second} ${match.first}`);
  }
  const order = active.slice().sort(
    (one, other) => points.get(other) - points.get(one) || wordOf.get(one) - wordOf.get(other) || one - other,
  );
  if (order.length % 2) order.push(0);
  const isPaired = order.map(() => false);
  const pairs = [];
  let steps = 0;
  // pairs the first who has nobody with the next one whom they have not met, and goes on with the others
  function pairFrom(begin) {
    let at = begin;
    while (at < order.length && isPaired[at]) at += 1;
    if (at === order.length) return true;
    isPaired[at] = true;
    for (let partner = at + 1; partner < order.length; partner += 1) {
      if (!isPaired[partner] && !met.has(`${order[at]} ${order[partner]}`)) {
        steps += 1;
        if (steps > MOST_STEPS) return false;
        isPaired[partner] = true;
        pairs.push([order[at], order[partner]]);
        if (pairFrom(at + 1)) return true;
        pairs.pop();
        isPaired[partner] = false;
      }
    }
    isPaired[at] = false;
    return false;
  }
  if (!pairFrom(0)) return null;
  return [...pairs.filter((pair) => pair[1]), ...pairs.filter((pair) => !pair[1])];
}

// ---- the standings, with each number that a tiebreaker is made of; fractions are exact

function fraction(numerator, denominator) {
  let [a, b] = [BigInt(numerator), BigInt(denominator)];
  const [top, bottom] = [a, b];
  while (b) [a, b] = [b, a % b];
  return { top: top / a, bottom: bottom / a };
}

const LEAST = fraction(33, 100);

function isLess(one, other) {
  return one.top * other.bottom < other.top * one.bottom;
}

function raised(share) {
  return isLess(share, LEAST) ? LEAST : share;
}

function meanOf(shares) {
  if (!shares.length) return LEAST;
  let sum = fraction(0, 1);
  for (const it of shares) sum = fraction(sum.top * it.bottom + it.top * sum.bottom, sum.bottom * it.bottom);
  return fraction(sum.top, sum.bottom * BigInt(shares.length));
}

// In hundredths of a percent, an exact half up.
function printed(share) {
  const hundredths = (20000n * share.top + share.bottom) / (2n * share.bottom);
  return `${hundredths / 100n}.${String(hundredths % 100n).padStart(2, "0")}`;
}

function isComplete(round) {
  return round.every((match) => match.score);
}

// What the complete rounds come to for a player: points, rounds, game points, games, and the opponents.
function totalsOf(player, rounds) {
  const found = { player, points: 0, rounds: 0, missed: 0, gamePoints: 0, games: 0, opponents: [], bye: 0 };
  const isIn = (match) => match.first === player.number || match.second === player.number;
  const firstRound = rounds.findIndex((round) => round.some(isIn));
  rounds.forEach((round, at) => {
    const match = round.find(isIn);
    if (!isComplete(round)) return;
    if (!match) {
      if (at < firstRound) found.missed += 1;
      return;
    }
    const [x, y, d] = match.score;
    const [won, lost] = match.first === player.number ? [x, y] : [y, x];
    found.points += pointsOf(won, lost);
    found.rounds += 1;
    found.gamePoints += 3 * won + d;
    found.games += x + y + d;
    const opponent = match.first === player.number ? match.second : match.first;
    if (opponent) found.opponents.push({ number: opponent, round: at + 1, score: [won, lost, d] });
    else found.bye = at + 1;
  });
  const counted = found.rounds + found.missed;
  found.matchWins = counted ? raised(fraction(found.points, 3 * counted)) : LEAST;
  found.gameWins = found.games ? raised(fraction(found.gamePoints, 3 * found.games)) : LEAST;
  return found;
}

function standings(players, rounds) {
  const totals = new Map(players.map((player) => [player.number, totalsOf(player, rounds)]));
  const listed = [...totals.values()];
  for (const it of listed) {
    it.opponentsMatchWins = meanOf(it.opponents.map((opponent) => totals.get(opponent.number).matchWins));
    it.opponentsGameWins = meanOf(it.opponents.map((opponent) => totals.get(opponent.number).gameWins));
  }
  const compared = (one, other) => {
    if (one.points !== other.points) return other.points - one.points;
    for (const share of ["opponentsMatchWins", "gameWins", "opponentsGameWins"]) {
      if (isLess(one[share], other[share])) return 1;
      if (isLess(other[share], one[share])) return -1;
    }
    return 0;
  };
  listed.sort((one, other) => compared(one, other) || one.player.number - other.player.number);
  listed.forEach((it, at) => {
    it.rank = at && compared(listed[at - 1], it) === 0 ? listed[at - 1].rank : at + 1;
  });
  return listed;
}

// ---- a text of a round

const FIRST_LINE = "event_reporter draw 2";
const BEFORE_THE_FIRST = "0".repeat(64);
const HEAD = ["round", "drawing", "after", "mark", "number", "by", "instead", "key"];
const VALUE = /^[1-9][0-9]{0,5}$/;
const DIGITS = /^[0-9a-f]{64}$/;

function isNumber(text) {
  const values = text.split(" ");
  const isAscending = values.every((value, at) => !at || Number(values[at - 1]) <= Number(value));
  return values.length <= 20 && values.every((value) => VALUE.test(value)) && isAscending;
}

function keyOf(round, number) {
  return sha256(bytesOf(`${FIRST_LINE}\nround ${round}\nnumber ${number}\n`));
}

function joined(lines) {
  return lines.map((line) => `${line}\n`).join("");
}

function tablesDue(round, seats) {
  const rows = seats.map(([first, second], at) => (
    second ? `${round},${at + 1},${first},${second},,,` : `${round},0,${first},0,2,0,0`
  ));
  return joined(["round,table,a,b,x,y,d", ...rows]);
}

// What a text says. It is taken only if it is, to the byte, laid out as one.
function readText(bytes) {
  let content;
  try {
    content = new TextDecoder("utf-8", { fatal: true, ignoreBOM: true }).decode(bytes);
  } catch {
    throw new NoText("its letters are no UTF-8");
  }
  need(content.endsWith("\n"), "it has no end");
  const lines = content.split("\n").slice(0, -1);
  need(lines[0] === FIRST_LINE, "it does not begin as one");
  const text = { sum: sha256(bytes) };
  HEAD.forEach((name, at) => {
    const line = lines[at + 1] || "";
    need(line.startsWith(`${name} `), `it has no line "${name}" in its place`);
    text[name] = line.slice(name.length + 1);
  });
  need(VALUE.test(text.round) && Number(text.round) <= 12, "its round is no number");
  need(/^[1-9][0-9]{0,3}$/.test(text.drawing), "its drawing is no number");
  text.round = Number(text.round);
  text.drawing = Number(text.drawing);
  need([text.after, text.mark, text.key].every((it) => DIGITS.test(it)), "what should be 64 digits is not");
  text.isDrawn = text.number !== "-";
  need(!text.isDrawn || isNumber(text.number), "its number is none");
  text.mistyped = text.instead === "-" ? [] : text.instead.split("; ");
  need(text.mistyped.every(isNumber), 'a number in its line "instead" is none');
  const throwers = text.by === "-" ? [] : text.by.split(" ").map((word) => whole(word, 512));
  need(throwers.every((it, at) => it > (at ? throwers[at - 1] : 0)), "its throwers are not in their order");
  const below = lines.slice(9);
  const results = below.indexOf("results.csv");
  const drawn = below.indexOf("drawn.csv", results + 1);
  need(below[0] === "players.csv" && results > 0 && drawn > results, "it has not its three lists");
  need(below[below.length - 1] === "end" && below.length > 2, "it has no end");
  text.lists = joined(below.slice(1, results)) + joined(below.slice(results + 1, drawn));
  text.players = playersOf(below.slice(1, results));
  text.rounds = roundsOf(below.slice(results + 1, drawn), text.players);
  need(text.rounds.length === text.round - 1, "its results are not those of the rounds before");
  need(text.rounds.every(isComplete), "a table of an earlier round has no score");
  const rows = rowsOf(below.slice(drawn + 1, -1), "round,table,a,b,x,y,d");
  text.seats = rows.map((row) => [whole(row[2] || "", 512), whole(row[3] || "", 512)]);
  const isLaidOut = tablesDue(text.round, text.seats) === joined(below.slice(drawn + 1, -1));
  need(rows.length && isLaidOut, "its tables are not laid out as such");
  return text;
}

// Several texts, one after the other, as they are pasted; a last line may have lost its end.
function textsIn(content) {
  const whole = content.endsWith("\n") || content === "" ? content : `${content}\n`;
  const mark = `\nend\n${FIRST_LINE}\n`;
  const parts = [];
  let rest = whole;
  for (let at = rest.indexOf(mark); at >= 0; at = rest.indexOf(mark)) {
    parts.push(rest.slice(0, at + 5));
    rest = rest.slice(at + 5);
  }
  return rest === "" ? parts : [...parts, rest];
}

// ---- what follows

const RIGHT = "right";
const WRONG = "WRONG";
const TOLD = "told";
const ASK = "is that so?";

function named(text) {
  return `round ${text.round}, drawing ${text.drawing}`;
}

// What follows from a text alone. `saw` is the number that somebody saw, or nothing.
function checkText(text, saw) {
  const said = [];
  const say = (isSo, right, wrong) => said.push(isSo ? [RIGHT, right] : [WRONG, wrong]);
  say(
    sha256(bytesOf(text.lists)) === text.mark,
    "Its lists are those of its mark.",
    "Its lists are not those of its mark: somebody changed them.",
  );
  if (text.isDrawn) {
    const from = `from round ${text.round} and the number ${text.number}`;
    const isKey = keyOf(text.round, text.number) === text.key;
    say(isKey, `Its key follows ${from}.`, `Its key does not follow ${from}.`);
  } else {
    said.push([TOLD, "KEY CHOSEN BY THE SCOREKEEPER: nobody threw for this round."]);
  }
  const due = pairing(text.players, text.rounds, text.key);
  say(
    due !== null && JSON.stringify(due) === JSON.stringify(text.seats),
    "Its tables are those that the rules give to its lists by its key.",
    "Its tables are not those that the rules give to its lists by its key.",
  );
  const typed = saw.trim().split(/[\s,;]+/).filter((word) => word !== "");
  if (typed.length) {
    const sorted = typed.slice().sort((one, other) => Number(one) - Number(other)).join(" ");
    say(
      sorted === text.number,
      `Its number is the one that you saw: ${text.number}.`,
      `You saw ${sorted}, and its number is ${text.number}.`,
    );
  } else if (text.isDrawn) {
    said.push([ASK, `Was ${text.number} thrown? It was not compared with a number that you saw.`]);
  }
  if (text.mistyped.length) {
    said.push([ASK, `Was ${text.instead} mistyped, and never thrown for this round?`]);
  }
  if (text.by !== "-") said.push([TOLD, `These players threw, by their numbers: ${text.by}.`]);
  if (text.drawing > 1) said.push([TOLD, `The lists were shut ${text.drawing} times.`]);
  return said;
}

// What has changed between two texts: of one round, or of a round and the next one.
function differences(before, after) {
  const told = [];
  after.players.forEach((player, at) => {
    const old = before.players[at];
    const who = `${player.name} (${player.number})`;
    if (!old) told.push(`${who} came`);
    else if (old.name !== player.name) told.push(`player ${player.number} has another name`);
    else if (old.hasDropped !== player.hasDropped) {
      told.push(`${who} ${player.hasDropped ? "dropped" : "is in again"}`);
    }
  });
  if (before.players.length > after.players.length) told.push("players are gone");
  before.rounds.forEach((round, at) => {
    const now = after.rounds[at] || [];
    round.forEach((match, place) => {
      const other = now[place];
      const isSame = other && JSON.stringify(match) === JSON.stringify(other);
      if (!isSame) told.push(`round ${at + 1}, table ${match.table} is otherwise`);
    });
  });
  return told;
}

// The texts in the order in which they follow on each other; where they don't, by round and drawing.
function inOrder(texts) {
  const left = [...new Map(texts.map((text) => [text.sum, text])).values()];
  left.sort((one, other) => one.round - other.round || one.drawing - other.drawing);
  const sums = new Set(left.map((text) => text.sum));
  const found = [];
  while (left.length) {
    let next = left.find((text) => !sums.has(text.after)) || left[0];
    while (next) {
      found.push(next);
      left.splice(left.indexOf(next), 1);
      const last = next;
      next = left.find((text) => text.after === last.sum);
    }
  }
  return found;
}

// What is to be said of a text beside those that were written before it, the newest first.
function checkBeside(text, earlier, isFirst) {
  const said = [];
  const [before] = earlier;
  if (before && text.after === before.sum) {
    said.push([RIGHT, `It follows on the text before it, ${named(before)}.`]);
  } else if (before) {
    said.push([WRONG, `It does not follow on ${named(before)}: a text was changed, or is not here.`]);
  } else if (isFirst) {
    said.push([RIGHT, "It is the first text."]);
  } else {
    said.push([TOLD, `It follows on a text that is not here, ${text.after.slice(0, 16)}.`]);
  }
  const drawn = earlier.find((it) => it.round === text.round);
  const numbered = earlier.find((it) => it.round === text.round && it.isDrawn);
  if (drawn) {
    const told = differences(drawn, text).join("; ") || "nothing has changed in the lists";
    said.push([TOLD, `Since drawing ${drawn.drawing}: ${told}.`]);
  }
  if (text.isDrawn && numbered && numbered.number !== text.number && !text.mistyped.includes(numbered.number)) {
    said.push([WRONG, `An earlier drawing had the number ${numbered.number}, and a number is for good.`]);
  }
  const roundBefore = earlier.find((it) => it.round === text.round - 1);
  if (roundBefore) {
    const seats = text.rounds[roundBefore.round - 1].map((match) => [match.first, match.second]);
    const isSame = (it) => it.round === roundBefore.round && JSON.stringify(it.seats) === JSON.stringify(seats);
    if (!earlier.some(isSame)) {
      said.push([WRONG, `Round ${roundBefore.round} was not played at the tables that were drawn.`]);
    }
    const old = { players: [], rounds: roundBefore.rounds };
    const told = differences(old, { players: [], rounds: text.rounds });
    if (told.length) said.push([TOLD, `Since round ${roundBefore.round} was drawn: ${told.join("; ")}.`]);
  }
  return said;
}

// All that is to be said of some texts: the text or null, and lines. `contents` are the bytes of each.
function check(contents, saw) {
  const texts = [];
  const reports = [];
  if (!contents.length) {
    reports.push({ text: null, said: [[WRONG, "No text of a round: nothing is there."]] });
  }
  for (const bytes of contents) {
    try {
      texts.push(readText(bytes));
    } catch (fault) {
      if (!(fault instanceof NoText)) throw fault;
      reports.push({ text: null, said: [[WRONG, `No text of a round: ${fault.message}.`]] });
    }
  }
  const ordered = inOrder(texts);
  ordered.forEach((text, at) => {
    const earlier = ordered.slice(0, at).reverse();
    const beside = checkBeside(text, earlier, text.after === BEFORE_THE_FIRST);
    const isLast = at === ordered.length - 1;
    reports.push({ text, said: [beside[0], ...checkText(text, isLast ? saw : ""), ...beside.slice(1)] });
  });
  return reports;
}

// How the tiebreakers of a player come about, by the rounds in a text: lines, or null without such a player.
function working(text, number) {
  const listed = standings(text.players, text.rounds);
  const byNumber = new Map(listed.map((it) => [it.player.number, it]));
  const me = byNumber.get(number);
  if (!me) return null;
  const shown = (share) => `${share.top}/${share.bottom} = ${printed(share)}`;
  const lines = [
    `${me.player.name} (${number}): rank ${me.rank}. Points: ${me.points}, rounds: ${me.rounds + me.missed}`
      + `${me.missed ? `, ${me.missed} of them missed` : ""}`,
    `GWP: ${me.gamePoints} of ${3 * me.games} game points: ${shown(me.gameWins)}`,
  ];
  text.rounds.forEach((round, at) => {
    const opponent = me.opponents.find((it) => it.round === at + 1);
    if (opponent) {
      const other = byNumber.get(opponent.number);
      const counted = other.rounds + other.missed;
      lines.push(
        `Round ${at + 1}, ${opponent.score.join("-")} against ${other.player.name} (${other.player.number}): `
          + `MWP ${other.points}/${3 * counted}: ${shown(other.matchWins)}; `
          + `GWP ${other.gamePoints}/${3 * other.games}: ${shown(other.gameWins)}`,
      );
    } else if (me.bye === at + 1) {
      lines.push(`Round ${at + 1}, bye: nobody's opponent`);
    }
  });
  lines.push(`OMW, the average of the opponents' MWP: ${shown(me.opponentsMatchWins)}`);
  lines.push(`OGW, the average of the opponents' GWP: ${shown(me.opponentsGameWins)}`);
  return lines;
}

if (typeof module !== "undefined") {
  module.exports = {
    sha256, bytesOf, wordsOf, keyOf, readText, textsIn, pairing, standings, printed, check, working, NoText,
  };
}
