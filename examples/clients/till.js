#!/usr/bin/env node
// A till that asks a vault for tokens through its front, as till.py does.
//
//     node till.js URL MERCHANT --certificate PEM --key PEM --authority PEM [--tries N]
//
// It reads card numbers from standard input, one a line, and prints a token and its end for each, or `refused`
// and the vault's number, or `refused front` and the front's. Where no answer came, or one that says to come
// again, the same request is sent again with the same number. A request number is drawn below 2^48, far from
// where a Number loses its last digits, 2^53. The exit status is 1 where a request was refused or unanswered.
"use strict";
const crypto = require("crypto");
const fs = require("fs");
const https = require("https");
const readline = require("readline");

const PATIENCE = 30000; // milliseconds for an answer
const UNKNOWN = 7; // a merchant that isn't known, which behind a front may be a route that is on its way
const UNKNOWN_TRIES = 6;
const sleep = (milliseconds) => new Promise((done) => setTimeout(done, milliseconds));

// The words of the command line: those with a name, and the others in their order.
function words(given) {
  const named = { tries: "10" };
  const others = [];
  for (let place = 0; place < given.length; place++) {
    if (given[place].startsWith("--")) named[given[place].slice(2)] = given[++place];
    else others.push(given[place]);
  }
  return { ...named, url: others[0], merchant: others[1] };
}

function end(line) {
  console.error(line);
  process.exit(1);
}

// Sixteen letters by which the front's log has a request; digits might be taken for a card number.
function reference() {
  const letters = [...crypto.randomBytes(16)].map((it) => "abcdefghijklmnop"[it % 16]);
  return `till-${letters.join("")}`;
}

// The status, the fields and the body of the answer to one request. Each request has a connection of its own.
function sent(till, fields, number) {
  return new Promise((done, lost) => {
    const target = new URL(`/v1/merchants/${encodeURIComponent(till.merchant)}/tokens`, till.url);
    const body = JSON.stringify({ number, use: "single" });
    const headers = { ...fields, "Content-Length": Buffer.byteLength(body) };
    const words = { method: "POST", headers, agent: false, timeout: PATIENCE, ...till.identity };
    const request = https.request(target, words, (answer) => {
      let text = "";
      answer.setEncoding("utf8").on("data", (piece) => (text += piece));
      answer.on("end", () => done({ status: answer.statusCode, fields: answer.headers, text }));
      answer.on("aborted", () => lost(new Error("the answer was cut off")));
    });
    request.on("timeout", () => request.destroy(new Error("no answer in time")));
    request.on("error", lost);
    request.end(body);
  });
}

// What an answer says: what to print, or why and after how many seconds to ask again.
function judged(answer, isLast) {
  let told = {};
  try {
    told = JSON.parse(answer.text) || {};
  } catch (error) {
    // an answer that isn't JSON says nothing but its status
  }
  if (answer.status === 200 && told.token) return { line: `${told.token} ${told.expires}` };
  if (told.refused === UNKNOWN && !isLast) return { why: "refused 7", after: 0 };
  if ("refused" in told) return { line: `refused ${told.refused}`, refused: true };
  if (answer.status >= 400 && answer.status < 500 && ![408, 429].includes(answer.status)) {
    return { line: `refused front ${told.front || answer.status}`, refused: true };
  }
  return { why: `status ${answer.status}`, after: Number(answer.fields["retry-after"]) || 0 };
}

// What is told of a card number, by one request that is repeated until it has an answer.
async function token(till, number) {
  const request = crypto.randomInt(1, 2 ** 48 - 1);
  const fields = { "X-Vault-Request": String(request), "X-Vault-Reference": reference() };
  let unknown = 0;
  for (let turn = 0, after = 0; turn < till.tries; turn++) {
    if (turn) await sleep(Math.max(Math.min(10000, 50 * 2 ** turn), after * 1000));
    let told;
    try {
      told = judged(await sent(till, fields, number), unknown >= UNKNOWN_TRIES - 1 || turn === till.tries - 1);
    } catch (error) {
      const isUntrusted = /CERT|SELF_SIGNED|ISSUER/.test(error.code || "");
      if (isUntrusted) end(`the front's certificate isn't trusted: ${error.code}`);
      told = { why: error.code || error.message, after: 0 };
    }
    if (told.line) return told;
    unknown += told.why === "refused 7";
    after = told.after;
    console.error(`request ${request} has no answer: ${told.why}`);
  }
  return end(`request ${request} has no answer yet: send it again with this number`);
}

async function main() {
  const till = words(process.argv.slice(2));
  till.tries = Number(till.tries);
  try {
    till.identity = { ca: fs.readFileSync(till.authority) };
    if (till.certificate) {
      till.identity.cert = fs.readFileSync(till.certificate);
      till.identity.key = fs.readFileSync(till.key);
    }
  } catch (error) {
    end(`the certificates can't be used: ${error.code}`);
  }
  let refused = 0;
  for await (const line of readline.createInterface({ input: process.stdin })) {
    const told = await token(till, line.trim());
    refused += told.refused ? 1 : 0;
    console.log(told.line);
  }
  if (refused) end(`requests that were refused: ${refused}`);
}

main();
