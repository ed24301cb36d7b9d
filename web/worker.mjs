// Runs the module away from the page: each message is one run, in an instance of its own. What is written is sent on
// every 50 ms.
import { joined, run } from "./host.mjs";

const PAUSE = 50;

onmessage = async ({ data: { module, words, files } }) => {
  const held = { 1: [], 2: [] };
  let sent = performance.now();
  const send = () => {
    for (const stream of [1, 2]) {
      const bytes = joined(held[stream]);
      held[stream] = [];
      if (bytes.length) postMessage({ stream, bytes }, [bytes.buffer]);
    }
    sent = performance.now();
  };
  const put = (stream, bytes) => {
    held[stream].push(bytes);
    if (performance.now() - sent > PAUSE) send();
  };
  try {
    const status = await run(module, words, files, put);
    send();
    postMessage({ status });
  } catch (error) {
    send();
    postMessage({ trap: String(error) });
  }
};
