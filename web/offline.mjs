// A service worker, which the Bench starts where the reader asks for an offline copy: it keeps the pages' files, and
// answers from them where the server does not.
const NAME = "sancus";

async function keepAll() {
  const listed = await (await fetch("files.txt")).text();
  const cache = await caches.open(NAME);
  await cache.addAll(["web/files.txt", ...listed.trimEnd().split("\n")].map((name) => new URL(`../${name}`, location)));
}

async function answer(request) {
  try {
    return await fetch(request);
  } catch {
    return await caches.match(request) ?? Response.error();
  }
}

addEventListener("install", (event) => event.waitUntil(keepAll()));
addEventListener("activate", (event) => event.waitUntil(clients.claim()));
addEventListener("fetch", (event) => event.respondWith(answer(event.request)));
