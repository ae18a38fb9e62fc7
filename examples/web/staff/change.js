// A change of what stands at the server. It is sent once, with the staff's key, and whatever comes back is told as what it is.
const NAMES = new Set(["not_staff", "bad_body", "no_such_profile", "no_such_feature", "history_full", "folder_fault", "journal_fault", "rejected", "want_of_memory"]);

/** Whether a text can be a key: 8 to 128 bytes from 0x21 to 0x7E. */
export const isKey = (text) => /^[!-~]{8,128}$/.test(text);

/** What became of a change: `done`, `refused` by name, `kept` where it was never sent or a proxy sent it back, `lost` where nobody said. */
export async function send(path, body, key, patience) {
  if (!navigator.onLine) return { is: "kept", why: "offline.kept" };
  let reply, text;
  try {
    const headers = { "x-staff-key": key, "content-type": "application/json" };
    reply = await fetch(path, { method: "POST", headers, body: JSON.stringify(body), cache: "no-store", credentials: "omit", redirect: "error", signal: AbortSignal.timeout(patience) });
    text = await reply.text();
  } catch {
    return { is: "lost" };
  }
  const told = await Promise.resolve(text).then(JSON.parse).catch(() => null), { status } = reply;
  if (status === 200 && Number.isSafeInteger(told?.version)) return { is: "done", told };
  if (status >= 400 && NAMES.has(told?.error)) return { is: "refused", name: told.error, told };
  if (status < 400 || status >= 500) return { is: "lost" };
  return { is: "kept", why: { 403: "network.wrong", 429: "too.many" }[status] ?? "refused", status };
}
