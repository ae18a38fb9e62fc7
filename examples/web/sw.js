// Answers from what the page kept, where the network doesn't. It keeps the page's own files; the files of a way are kept by store.js.
const KEPT = "kept";
const PAGE = ["./", "style.css", "page.js", "check.js", "frame.js", "words.js", "en.js", "de.js", "store.js", "names.js", "draw.js", "map.js", "search.js", "way.js", "icons.svg", "icon.svg", "site.json"];

self.addEventListener("install", (event) => event.waitUntil(caches.open(KEPT).then((store) => store.addAll(PAGE)).then(() => self.skipWaiting())));
self.addEventListener("activate", (event) => event.waitUntil(self.clients.claim()));

async function answer(request, isOfPage) {
  const store = await caches.open(KEPT), ofKept = () => store.match(request.mode === "navigate" ? "./" : request, { ignoreSearch: true });
  try {
    const reply = await fetch(request);
    if (reply.ok && isOfPage) await store.put(request.url, reply.clone());
    return reply.status < 500 ? reply : (await ofKept()) ?? reply;
  } catch {
    return (await ofKept()) ?? Response.error();
  }
}

self.addEventListener("fetch", (event) => {
  const { origin, pathname } = new URL(event.request.url);
  // Of the staff's page nothing is kept.
  if (event.request.method !== "GET" || origin !== location.origin || pathname.includes("/v1/") || /\/(staff[./]|folders\/)/.test(pathname)) return;
  event.respondWith(answer(event.request, !pathname.includes("/data/")));
});
