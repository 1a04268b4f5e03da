// Makes calls of the library by a module of the same code as that of a page, one after another in one instance.
//
//     node page_calls.mjs PAGE MODULE < CASES > ENDS
//
// CASES is a line of JSON, `{"lengths": .., "cases": ..}`, and behind it the texts of these lengths. A case is the name of a call
// and what it takes, each as a pair: ["input", T] with the number of a text, ["number", N], ["options", [T, S, F, R]] with the
// text of the run ids, how strictly, the form and whether the input is receipts, or ["answer", 0]. ENDS is JSON too, with the version of the library, and for each
// case the number, the length of the text that is held, and the SHA-256 and the beginning of the text and the facts behind it. The
// length is -1 if nothing is held.
import crypto from "node:crypto";
import fs from "node:fs";
import { pageOf } from "./page_module.mjs";

const ID_BYTES = 32, POINTER_BYTES = 8, OPTIONS_BYTES = 64, FACT_BYTES = 88, SHOWN = 60;
const { of, heldBy, joined, put } = await pageOf(process.argv[2], ["heldBy", "joined", "put"], process.argv[3]);
const given = fs.readFileSync(0), behind = given.indexOf(10) + 1;
const { lengths, cases } = JSON.parse(given.subarray(0, behind));
const texts = [];
for (let at = behind; texts.length < lengths.length; at += texts.at(-1).length) texts.push(given.subarray(at, at + lengths[texts.length]));

const numberAt = at => new DataView(of.memory.buffer).getBigUint64(Number(at), true);
const told = (end, count, bytes) =>
  [end, count, crypto.createHash("sha256").update(bytes).digest("hex"), Buffer.from(bytes.subarray(0, SHOWN)).toString("latin1")];

// An answer that holds nothing yet.
function answerOf() {
  const answer = put(of, new Uint8Array(POINTER_BYTES));
  const read = end => {
    const held = numberAt(answer.at) ? heldBy(of, answer) : null;
    const facts = held ? heldBy(of, answer, "sm_answer_facts", FACT_BYTES) : new Uint8Array();
    of.sm_answer_free(answer.at);
    return told(end, held ? held.length : -1, joined([held ?? new Uint8Array(), facts]));
  };
  return { words: [answer.at], read, owned: [answer.at] };
}

// Options of run ids, how strictly, the form, and whether the input is receipts. Without an admission no address is null.
function optionsOf(runs, strict, form, receipts = 0) {
  const ids = put(of, texts[runs]), options = new DataView(new ArrayBuffer(OPTIONS_BYTES));
  options.setBigUint64(0, ids.at, true);
  options.setBigUint64(8, ids.length / BigInt(ID_BYTES), true);
  options.setUint32(16, strict, true);
  options.setUint32(20, form, true);
  options.setUint32(24, receipts, true);
  for (const place of [32, 48]) options.setBigUint64(place, ids.at, true);
  const { at } = put(of, new Uint8Array(options.buffer));
  return { words: [at], owned: [ids.at, at] };
}

// What a call takes, as words of the module: a number, options, an answer, or a text that is read.
function taken([kind, it]) {
  if (kind === "number") return { words: [it], owned: [] };
  if (kind === "options") return optionsOf(...it);
  if (kind === "answer") return answerOf();
  const { at, length } = put(of, texts[it]);
  return { words: [at, length], owned: [at] };
}

// What a call comes to. One that traps comes to what the trap says.
function called([name, ...parts]) {
  try {
    return ended(name, parts.map(taken));
  } catch (fault) {
    return [String(fault), -1, "", ""];
  }
}

function ended(name, all) {
  const end = of[name](...all.flatMap(it => it.words)), answer = all.find(it => it.read).read(end);
  for (const at of all.flatMap(it => it.owned)) of.give_back(at);
  return answer;
}

process.stdout.write(JSON.stringify({ version: of.sm_version(), ends: cases.map(called) }));
