// Runs page/worker.js in a thread of Node, as a browser runs it in a worker: node:worker_threads starts this file.
import { parentPort, workerData } from "node:worker_threads";

globalThis.postMessage = message => parentPort.postMessage(message);
globalThis.addEventListener = (kind, listener) => parentPort.on(kind, data => listener({ data }));
await import(workerData);
