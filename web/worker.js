"use strict";

// The worker. It is asked once, with four texts and K, and tells how far it is, then the verdict. judge() is the
// checker's, of worker.ml; what another reading sees comes with its line.

const partSize = 1 << 16;
const tellEvery = 100;

onmessage = async ({ data: asked }) => {
  try {
    const [map, scen, plan, cert] = await Promise.all([asked.map, asked.scen, asked.plan, asked.cert].map(bytesOf));
    const k = new TextEncoder().encode(asked.k);
    postMessage({ kind: "prepares" });
    const [line, answer] = judge(map, scen, k, plan, partsOf(cert)) ?? [null, null];
    postMessage({ kind: "verdict", line, answer, seen: seenOf(line, answer, asked, { map, scen, plan, cert }) });
  } catch (error) {
    postMessage({ kind: "fault", words: wordsOf(error) });
  }
};

async function bytesOf(file) {
  try {
    return new Uint8Array(await file.arrayBuffer());
  } catch {
    throw new Error(`${file.name} can't be read. If it was changed after it was chosen, choose it again.`);
  }
}

// What gives the next part of the certificate, and tells now and then how far it is.
function partsOf(cert) {
  let [at, toldAt] = [0, 0];
  return () => {
    if (at === 0 || performance.now() - toldAt > tellEvery) {
      toldAt = performance.now();
      postMessage({ kind: "reads", done: at, size: cert.length });
    }
    return cert.subarray(at, (at += partSize));
  };
}

// An error that isn't the worker's own comes from the checker, where it needs more memory or a deeper stack than the
// browser gives it.
function wordsOf(error) {
  return error.constructor === Error
    ? error.message
    : `The checker needs more memory than this browser gives a page (${error.message ?? "no stack"}).`;
}
