// Asks the module of a page, by the page's own script, one case after another.
//
//     node page_asks.mjs PAGE < CASES > ANSWERS
//
// A case is a line with the name of a call, the run ids that are expected (or `-`), the numbers that the call takes first,
// and the length of its input, and then the input. An answer is a line with what came and the length of the bytes behind it,
// and these bytes. The call is one of the module. `sm_refute` is answered with what is found against the log: its number is
// the length of the evidence, behind which the log stands in the input.
import fs from "node:fs";
import { pageOf } from "./page_module.mjs";

const names = ["NO", "ask", "foundAgainst", "joined", "put"];
const { of, NO, ask, foundAgainst, joined, put } = await pageOf(process.argv[2], names);
const cases = fs.readFileSync(0);

// What evidence and a log behind it come to, with what is found against the log.
function refuted(given, length) {
  const parts = [given.subarray(0, length), given.subarray(length)], inputs = parts.map(it => put(of, it));
  const { end, bytes } = ask(of, "sm_refute", inputs);
  for (const { at } of inputs) of.give_back(at);
  return { end, bytes: joined([bytes, new TextEncoder().encode(end === NO ? foundAgainst(of, ...parts) : "")]) };
}

// What a call comes to.
function answerOf(call, given, runs, numbers) {
  if (call === "sm_refute") return refuted(given, ...numbers);
  const input = put(of, given), answer = ask(of, call, [input], { runs, numbers });
  of.give_back(input.at);
  return answer;
}

for (let at = 0; at < cases.length;) {
  const behind = cases.indexOf(10, at) + 1;
  const [call, ids, ...numbers] = cases.subarray(at, behind - 1).toString().split(" ");
  const length = Number(numbers.pop()), runs = Uint8Array.from(Buffer.from(ids.replaceAll(/[,-]/g, ""), "hex"));
  const { end, bytes } = answerOf(call, cases.subarray(behind, behind + length), runs, numbers.map(Number));
  fs.writeSync(1, `${end} ${bytes.length}\n`);
  for (let done = 0; done < bytes.length;) done += fs.writeSync(1, bytes, done);
  at = behind + length;
}
