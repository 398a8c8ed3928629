// The page for the back office. It asks the front that it came from, by the certificate of the browser, and
// keeps nothing: no storage, no cookie, no token in a target of the page. What is shown is text alone.
"use strict";

const SECONDS = 30; // how long a card number is shown
const MOST = 50; // how many tokens are looked up at a time
const PATIENCE = 3000; // after so many milliseconds it says that the vault is waited for

// What each number of a refusal means to who sits here.
const REFUSED = {
  1: "This is no card number.",
  2: "This is no card number: a digit is wrong.",
  3: "This is no token: it has 10 to 19 digits and fails the card check.",
  4: "This is no merchant's name: it has 1 to 16 of a to z, 0 to 9 and hyphens.",
  5: "This is no request number.",
  7: "The vault doesn't know this merchant.",
  8: "You haven't the right to do this at this merchant, or your right has ended.",
  9: "The merchant doesn't offer tokens of this use.",
  10: "The request number was used for another request.",
  11: "The merchant is full: it has 1,000,000 tokens.",
  12: "No free token was found. Please try again.",
  13: "The merchant has no such token.",
  14: "The card number of this token is purged, and nothing brings it back.",
  15: "The token is revoked, so it gives no number any more.",
  16: "The token has expired, so it gives no number any more.",
  17: "The token is live. Revoke it before its card number is purged.",
  18: "The vault has no room for another merchant.",
  19: "A token's use is single or multi.",
  50: "The vault couldn't read the request.",
  51: "The request was too large for the vault.",
  52: "The vault couldn't read the request's length.",
  53: "The vault doesn't take a request in chunks.",
  54: "The request was too large for the vault.",
  56: "The vault doesn't know what was asked.",
  57: "The vault doesn't do this with what was asked.",
  58: "The front didn't say who asks. Please tell who runs it.",
  59: "The vault couldn't read the request's body.",
};
const FRONT = {
  403: "The front doesn't know you: your certificate has no caller's name.",
  408: "The request took too long.",
  429: "Too many requests, or as many card numbers as you may see in a day. Please wait for a while.",
  495: "Your certificate isn't taken: it has run out, or was taken back.",
  496: "Your browser sent no certificate.",
};
const STATES = { live: "live", revoked: "revoked", expired: "expired" };
const at = (id) => document.getElementById(id);
let about = null; // the merchant and the token that were looked up
let asker = null; // the button whose question is open
let clock = null;
let busy = 0;

function say(words, bad) {
  at("said").textContent = words;
  at("said").className = bad ? "bad" : "";
  at("said").hidden = !words;
}

function inWords(status, told) {
  if ("refused" in told) return REFUSED[told.refused] || `The vault refused this by ${told.refused}.`;
  if ("front" in told) return FRONT[told.front] || `The front refused this by ${told.front}.`;
  if (told.away) return "The vault is away. Please try again in a while.";
  return `There was an answer that this page doesn't know (${status}).`;
}

// Asks, and answers what was told, or null where that was said already. A reference stands in the front's log.
async function ask(method, target, reference) {
  const turn = ++busy;
  say("", false);
  const waits = () => turn === busy && say("The vault is away; this waits for it.", false);
  const late = setTimeout(waits, PATIENCE);
  try {
    const answer = await fetch(target, {
      method, cache: "no-store", credentials: "same-origin", mode: "same-origin", redirect: "error",
      referrerPolicy: "no-referrer", signal: AbortSignal.timeout(150000),
      headers: reference ? { "X-Vault-Reference": reference } : {},
    });
    const told = await answer.json();
    if (turn !== busy) return null;
    say("", false);
    if (answer.status === 200) return told;
    say(inWords(answer.status, told), true);
  } catch (error) {
    if (turn === busy) say("There was no answer. Please try again.", true);
  } finally {
    clearTimeout(late);
  }
  return null;
}

// The digits of what was typed; spaces of any kind and hyphens between them don't count.
const digitsOf = (text) => text.replace(/[\s\u00ad\u200b-\u200d\u2060\ufeff\u2010-\u2015-]/g, "");

function passesCheck(digits) {
  let total = 0;
  [...digits].reverse().forEach((digit, place) => {
    const worth = Number(digit) * (1 + (place % 2));
    total += worth > 9 ? worth - 9 : worth;
  });
  return total % 10 === 0;
}

function grouped(digits) {
  return digits.replace(/(.{4})(?=.)/g, "$1 ");
}

function moment(seconds) {
  const parts = { day: "numeric", month: "short", year: "numeric", hour: "2-digit", minute: "2-digit" };
  return new Date(seconds * 1000).toLocaleString("en-GB", { ...parts, timeZoneName: "short" });
}

function hideNumber() {
  clearInterval(clock);
  at("digits").textContent = "";
  at("shown").hidden = true;
}

function hideFound() {
  hideNumber();
  about = null;
  for (const id of ["found", "counts", "sure", "many"]) at(id).hidden = true;
  at("rows").replaceChildren();
  for (const id of ["mask", "state", "of", "use", "birth", "expires"]) at(id).textContent = "";
}

// The merchant that was typed, or null where it is no name; a card number isn't sent as one.
function merchant() {
  const name = at("merchant").value.trim();
  if (/^[a-z0-9-]{1,16}$/.test(name) && !/\d{10}/.test(digitsOf(name))) return name;
  say(REFUSED[4], true);
  return null;
}

// The tokens that were typed, a line each, or null. A number that passes the card check isn't sent to anybody,
// and doesn't stay in its field.
function tokens() {
  const typed = at("token").value.split(/[\r\n\t,;]+/).map(digitsOf).filter((it) => it);
  if (typed.some((it) => /^[0-9]{10,19}$/.test(it) && passesCheck(it))) {
    at("token").value = "";
    say("This is a card number and no token. It wasn't sent.", true);
  } else if (!typed.length || typed.some((it) => !/^[0-9]{10,19}$/.test(it))) {
    say(typed.length > 1 ? `Among these is no token. ${REFUSED[3]}` : REFUSED[3], true);
  } else if (typed.length > MOST) {
    say(`These are ${typed.length} tokens. At most ${MOST} are looked up at a time.`, true);
  } else {
    return typed;
  }
  return null;
}

// What was typed as a case, or null where the front's log wouldn't take it.
function reference() {
  const words = at("case").value.trim();
  const fits = /^[A-Za-z0-9][A-Za-z0-9 ._:/#-]{0,63}$/.test(words) && !/(?:[0-9][ ._:/#-]*){10}/.test(words);
  if (!words || fits) return words;
  say("A case has letters, digits, spaces and . _ : / # - and no ten digits in a row.", true);
  return null;
}

const targetOf = (it) => `/v1/merchants/${it.merchant}/tokens/${it.token}`;

async function look(it) {
  const told = await ask("GET", targetOf(it));
  if (!told) return;
  about = it;
  at("mask").textContent = told.masked;
  at("state").textContent = STATES[told.state] || told.state;
  at("state").className = told.state;
  at("of").textContent = grouped(it.token);
  at("use").textContent = told.use;
  at("birth").textContent = moment(told.birth);
  at("expires").textContent = moment(told.expires);
  at("number").disabled = at("revoke").disabled = told.state !== "live";
  at("purge").disabled = told.state === "live";
  at("found").hidden = false;
}

// Looks up tokens one after the other; a row of the table opens its token.
async function lookAll(name, all) {
  at("many-of").textContent = `${all.length} tokens of ${name}`;
  at("many").hidden = false;
  for (const one of all) {
    const it = { merchant: name, token: one };
    const turn = busy;
    const told = await ask("GET", targetOf(it));
    if (busy !== turn + 1) return;
    const row = document.createElement("tr");
    const open = document.createElement("button");
    open.type = "button";
    open.className = "quiet";
    open.textContent = grouped(one);
    open.addEventListener("click", () => look(it));
    const seen = told && [told.masked, STATES[told.state] || told.state, moment(told.expires)];
    const cells = seen || [at("said").textContent, "", ""];
    for (const content of [open, ...cells]) {
      const cell = document.createElement("td");
      cell.append(content);
      row.append(cell);
    }
    at("rows").append(row);
  }
  say(`${all.length} tokens were looked up.`, false);
}

at("asked").addEventListener("submit", (event) => {
  event.preventDefault();
  hideFound();
  const name = merchant();
  const all = tokens();
  if (!all) return;
  if (!name) return say(REFUSED[4], true);
  if (all.length > 1) lookAll(name, all);
  else look({ merchant: name, token: all[0] });
});

// Enter looks up; with Shift it begins another line of a column. A column that was pasted shows more lines.
at("token").addEventListener("keydown", (event) => {
  if (event.key !== "Enter" || event.shiftKey) return;
  event.preventDefault();
  at("asked").requestSubmit();
});
at("token").addEventListener("input", () => {
  at("token").rows = Math.min(8, at("token").value.split("\n").length);
});

at("count").addEventListener("click", async () => {
  hideFound();
  const name = merchant();
  const told = name && (await ask("GET", `/v1/merchants/${name}/audit`));
  if (!told) return;
  at("counts-of").textContent = `Counts of ${name}`;
  for (const id of ["made", "given", "denied"]) at(id).textContent = told[id].toLocaleString("en-GB");
  at("full").value = told.made;
  const percent = (told.made / 10000).toFixed(1);
  at("room").textContent = `${percent} % of the 1,000,000 tokens that a merchant has for good`;
  at("counts").hidden = false;
});

function showNumber(digits) {
  const ends = performance.now() + SECONDS * 1000; // which no change of the clock moves
  const tick = () => {
    const left = Math.ceil((ends - performance.now()) / 1000);
    at("left").textContent = left;
    if (left <= 0) hideNumber();
  };
  at("digits").textContent = grouped(digits);
  at("shown").hidden = false;
  clock = setInterval(tick, 250);
  tick();
}

at("number").addEventListener("click", async () => {
  hideNumber();
  const it = about;
  const why = reference();
  const told = it && why !== null && (await ask("POST", `${targetOf(it)}/number`, why));
  if (told && it === about && !document.hidden) showNumber(told.number);
});

// Asks whether it is meant; what is done then can't be taken back.
function sure(question, yes, done) {
  at("question").textContent = question;
  at("yes").textContent = yes;
  at("yes").onclick = () => {
    at("sure").hidden = true;
    done().then(() => at("said").focus());
  };
  asker = document.activeElement;
  at("sure").hidden = false;
  at("no").focus();
}

// The question goes, and whoever asked it is where they were before.
function leave() {
  if (at("sure").hidden) return;
  at("sure").hidden = true;
  asker.focus();
}

at("no").addEventListener("click", leave);
document.addEventListener("keydown", (event) => event.key === "Escape" && leave());

at("revoke").addEventListener("click", () => {
  const it = about;
  hideNumber();
  sure("A revoked token gives no card number any more, for good.", "Revoke it", async () => {
    const told = await ask("POST", `${targetOf(it)}/revoke`);
    if (!told) return;
    await look(it);
    say("The token is revoked.", false);
  });
});

at("purge").addEventListener("click", () => {
  const it = about;
  sure("Its card number leaves the vault for good, and nothing brings it back.", "Purge it", async () => {
    const told = await ask("DELETE", targetOf(it));
    if (!told) return;
    hideFound();
    say("The card number is purged. The token stays taken.", false);
  });
});

at("hide").addEventListener("click", hideNumber);
document.addEventListener("visibilitychange", () => document.hidden && hideNumber());
window.addEventListener("pagehide", () => {
  hideFound();
  at("asked").reset();
});
fetch("/caller", { cache: "no-store", credentials: "same-origin", redirect: "error" })
  .then((answer) => answer.json())
  .then((told) => (at("who").textContent = told.caller ? `as ${told.caller}` : ""))
  .catch(() => {});
