"use strict";

// The script of put.html#LINK and get.html#LINK. With a presigned link, it sends one file to its own origin, or fetches one
// from there, and shows the answer. `draw` redraws the page from `state` whenever that changes.

(() => {
  const PUT = document.documentElement.dataset.page === "put";
  const LIMIT = 8388608;
  const {
    $, text, has, count, withUtc, node, button, acts, facts, list, announce, save, unsendable, refused, foreign, refusal, explained,
    officeSays, drawResult, goToResult, translate, speaks,
  } = Page;
  const state = { link: null, file: null, missing: false, busy: null, result: null, url: null };
  const given = new Set(); // the receipts that were told since the page was loaded
  let request = null;

  // ---- texts

  /** A text that has a separate version for fetching. */
  function either(key, values) {
    return text(PUT ? key : `${key}_get`, values);
  }

  // ---- the link

  /** The path of a target as box and name, decoded; null if it does not decode to UTF-8. */
  function place(target) {
    try {
      const [, box, name] = /^\/([^/]*)\/?(.*)$/s.exec(decodeURIComponent(target.split("?")[0]));
      return { box, name };
    } catch {
      return null;
    }
  }

  /** The link's period of validity, as the link states it. */
  function term(target) {
    const said = new URLSearchParams(target.split("?")[1] || "");
    const date = /^(\d{4})(\d\d)(\d\d)T(\d\d)(\d\d)(\d\d)Z$/.exec(said.get("X-Amz-Date") || "");
    const seconds = /^\d{1,6}$/.exec(said.get("X-Amz-Expires") || "");
    if (!date || !seconds) return null;
    const [year, month, ...rest] = date.slice(1).map(Number);
    const from = new Date(Date.UTC(year, month - 1, ...rest));
    return { from, to: new Date(from.getTime() + 1000 * Number(seconds[0])) };
  }

  /**
   * The link after the #: a full URL, or its path and query, or the address of such a page, as the office hands it out. It is
   * usable only if the browser sends path and query unchanged.
   */
  function readLink() {
    const [, page, raw] = /^(?:https?:\/\/([^/?#]+)\/(?:put|get)\.html#)?(.*)$/is.exec(location.hash.slice(1));
    if (!raw) return { fault: "no_link" };
    const parts = /^(?:https?:\/\/([^/?#]+))?(\/[^#]*)$/i.exec(raw);
    if (!parts) return { fault: "form" };
    const [, host = page, target] = parts;
    const fault = unsendable(target);
    if (fault) return { fault };
    const other = host && host.toLowerCase() !== location.host ? host : null;
    return { target, other, place: place(target), term: term(target) };
  }

  function takeLink() {
    const pasted = $("fault").contains(document.activeElement);
    forget();
    Object.assign(state, { link: readLink(), file: null });
    if ($("file")) $("file").value = "";
    draw();
    if (state.link.fault) announce(text(state.link.fault));
    else if (pasted) $("link_title").focus();
  }

  // ---- the file

  async function digestOf(bytes) {
    if (!globalThis.crypto || !crypto.subtle) return null;
    const digest = new Uint8Array(await crypto.subtle.digest("SHA-256", bytes));
    return Array.from(digest, (byte) => byte.toString(16).padStart(2, "0")).join("");
  }

  /** Takes the first of these files, and reports that there are several. */
  async function takeFile(files) {
    if (!files.length || state.busy || state.link.fault) return;
    forget();
    const [chosen] = files;
    const file = { name: chosen.name, length: chosen.size, several: files.length > 1 };
    state.file = file;
    if (file.length > LIMIT) return finish({ kind: "refused", number: 5, early: true });
    draw();
    const chosenWords = () => text("chosen", { file: file.name, length: count(file.length) });
    announce([...(file.several ? [text("several")] : []), chosenWords()].join(" "));
    try {
      const bytes = await chosen.arrayBuffer();
      file.digest = await digestOf(bytes);
      file.bytes = bytes;
    } catch {
      if (state.file !== file) return;
      state.file = null;
      finish({ kind: "unreadable" });
      return;
    }
    if (state.file !== file) return;
    draw();
    if (file.digest) announce(`${chosenWords()} ${text("chosen_digest")}`);
    if (file.wanted) go();
  }

  // ---- requests to the office

  /** Clears the last result, and aborts a running request. */
  function forget() {
    const old = request;
    request = null;
    if (old) old.abort();
    if (state.url) URL.revokeObjectURL(state.url);
    Object.assign(state, { busy: null, result: null, url: null, missing: false });
  }

  function go() {
    if (state.busy) return;
    const file = state.file;
    if (PUT && !file) {
      state.missing = true;
      draw();
      announce(text("choose_first"));
      return $("file").focus();
    }
    if (PUT && file.length > LIMIT) return finish({ kind: "refused", number: 5, early: true });
    if (PUT && !file.bytes) {
      file.wanted = true; // sent as soon as it is read
      return undefined;
    }
    forget();
    state.busy = { loaded: 0, total: PUT ? file.length : 0, told: 0 };
    draw();
    $("stop").focus();
    announce(text(PUT ? "progress_put" : "progress_get"));
    return send(PUT ? file.bytes : null);
  }

  function send(bytes) {
    const asked = new XMLHttpRequest();
    request = asked;
    asked.open(PUT ? "PUT" : "GET", location.origin + state.link.target);
    asked.responseType = "arraybuffer";
    (PUT ? asked.upload : asked).addEventListener("progress", (event) => {
      if (request === asked) moved(event.loaded, event.lengthComputable && event.total);
    });
    const end = (act) => (event) => {
      if (request !== asked) return;
      request = null;
      act(event);
    };
    asked.addEventListener("load", end(() => answered(asked)));
    asked.addEventListener("error", end(() => finish({ kind: "lost" })));
    asked.addEventListener("abort", end(() => state.busy && finish({ kind: "stopped" })));
    asked.send(bytes);
  }

  function moved(loaded, total) {
    if (!state.busy) return;
    Object.assign(state.busy, { loaded, total: total || state.busy.total });
    drawProgress();
    const quarter = state.busy.total ? Math.floor((4 * loaded) / state.busy.total) : 0;
    if (quarter > state.busy.told) {
      state.busy.told = quarter;
      announce(soFar());
    }
  }

  async function answered(asked) {
    const { status } = asked;
    const bytes = asked.response || new ArrayBuffer(0);
    const said = bytes.byteLength < 200 ? new TextDecoder().decode(bytes) : "";
    const refusedBy = refused(status, said);
    const moment = new Date();
    if (refusedBy) return finish(refusedBy);
    if (status === 200 && PUT) {
      const told = /^receipt ([1-9]\d*) (\d+) ([0-9a-f]{64})\n$/.exec(said);
      if (told) {
        const [, number, length, digest] = told;
        return receipted({ number, length: Number(length), digest, moment, line: said.trim() });
      }
    }
    const number = asked.getResponseHeader("X-Drop-Receipt");
    const digest = asked.getResponseHeader("X-Drop-Sha256");
    if (status === 200 && !PUT && number && digest) {
      const { link } = state;
      const length = Number(asked.getResponseHeader("Content-Length"));
      const own = await digestOf(bytes);
      return state.link === link ? fetched({ number, digest, length, bytes, moment, own }) : undefined;
    }
    if (status === 413) return finish({ kind: "refused", number: 5 });
    return finish(foreign(status));
  }

  function check(own, digest, lengths) {
    if (!lengths || (own && own !== digest)) return "differs";
    return own ? "equal" : "unchecked";
  }

  function receipted(receipt) {
    const { file } = state;
    const same = given.has(receipt.line);
    given.add(receipt.line);
    const checked = check(file.digest, receipt.digest, receipt.length === file.length);
    finish({ kind: "receipt", ...receipt, same, checked, own: file.digest });
  }

  function fetched(found) {
    const checked = check(found.own, found.digest, found.length === found.bytes.byteLength);
    const blob = new Blob([found.bytes], { type: "application/octet-stream" });
    if (checked !== "differs") state.url = URL.createObjectURL(blob);
    finish({ kind: "fetched", ...found, bytes: null, arrived: found.bytes.byteLength, checked });
  }

  function finish(result) {
    Object.assign(state, { busy: null, result });
    draw();
    goToResult();
  }

  // ---- what is shown of a result

  function receiptRows({ number, length, digest, moment, own }) {
    const { place: where } = state.link;
    return [
      ["address", location.host], ...(where ? [["box", where.box], ["name", where.name]] : []),
      ["number", String(number)], ["length", text("bytes", { length: count(length) })], ["office_digest", digest, "code"],
      ...(own ? [["own_digest", own, "code"]] : []), ["moment", withUtc(moment)],
    ];
  }

  /** The receipt as text. */
  function receiptText(result) {
    const rows = [...receiptRows(result), ["answer", result.line]];
    return [text("receipt", result), "", ...rows.map(([key, value]) => `${text(key)}: ${value}`),
      "", checkWords(result), text("moment_note"), text("check"), "",
    ].join("\n");
  }

  function keepReceipt() {
    save(text("receipt_file", state.result), receiptText(state.result));
  }

  function checkWords(result) {
    return PUT || result.checked === "unchecked" ? text(result.checked) : either(result.checked);
  }

  function tone(result) {
    return { equal: "good", differs: "bad", unchecked: "note" }[result.checked];
  }

  function checked(result) {
    return node("p", checkWords(result), { id: "checked", class: tone(result) });
  }

  /** The part of the name after its last slash, for a file that is saved. */
  function fileName() {
    const name = state.link.place ? state.link.place.name.split("/").pop() : "";
    return name || "file";
  }

  function showReceipt(result) {
    const well = result.checked !== "differs";
    return [well ? tone(result) : "bad", well ? text("receipt", result) : text("differs_title"), [
      node("p", result.same ? text("same") : text(well ? "receipt_lead" : "differs"), { id: "lead" }),
      ...(well || result.same ? [checked(result)] : []), list(receiptRows(result)),
      node("p", text("check"), { class: "small" }), node("p", text("moment_note"), { class: "small" }),
      acts(button("print", "print", () => window.print()), button("keep", "keep", keepReceipt)),
    ]];
  }

  function showFetched(result) {
    if (result.checked === "differs") {
      const rows = list(receiptRows(result));
      return ["bad", text("differs_get_title"), [checked(result), rows, acts(button("again", "again", go))]];
    }
    const file = fileName();
    const more = { id: "save", class: "button main", href: state.url, download: file };
    return [tone(result), text("fetched"), [
      checked(result), list(receiptRows(result)), acts(node("a", text("save", { file }), more)),
    ]];
  }

  function showRefused({ number, line, early }) {
    const [what, remedy] = refusal(number);
    const key = `remedy_${remedy}`;
    const words = has(key) ? text(key) : text(`${key}_${PUT ? "put" : "get"}`);
    const { other } = state.link;
    const elsewhere = other && number === 21 && text("other_host", { host: other, here: location.host });
    return ["bad", text(early ? "not_sent" : "refused", { number }), [
      ...explained(what, words),
      ...(elsewhere ? [node("p", elsewhere, { class: "note" })] : []),
      ...officeSays(line),
      ...([6, 40].includes(number) ? harmless() : []),
      ...(RETRY.includes(number) ? [acts(button("again", "again", go))] : []),
    ]];
  }

  function harmless() {
    return PUT ? [node("p", text("harmless"), { class: "small" })] : [];
  }

  function showFault({ kind, status }) {
    const key = ["lost", "stopped"].includes(kind) ? either(kind) : text(kind, { status });
    const what = node("p", key, { id: "what" });
    const more = kind === "unreadable" ? [] : [...harmless(), acts(button("again", "again", go))];
    return ["bad", text(`${kind}_title`), [what, ...more]];
  }

  // ---- drawing

  function soFar() {
    const { loaded, total } = state.busy;
    if (PUT && loaded >= total) return text("sent_all");
    if (!total) return text("fetched_so_far", { loaded: count(loaded) });
    return text("sent_so_far", { percent: Math.floor((100 * loaded) / total), loaded: count(loaded), total: count(total) });
  }

  function drawProgress() {
    $("progress").hidden = !state.busy;
    if (!state.busy) return;
    const { loaded, total } = state.busy;
    if (total) $("bar").value = (100 * loaded) / total;
    else $("bar").removeAttribute("value");
    $("so_far").textContent = soFar();
  }

  function drawLink() {
    const { fault, other, term, place: where } = state.link;
    $("fault").hidden = !fault;
    $("link").hidden = Boolean(fault);
    $("work").hidden = Boolean(fault);
    if (fault) {
      $("fault_text").textContent = text(fault);
      return;
    }
    facts($("link_facts"), [
      ...(where ? [["box", where.box], ["name", where.name]] : []),
      ...(term ? [["holds", text("holds_from_to", { from: withUtc(term.from), to: withUtc(term.to) })]] : []),
    ]);
    $("link_note").hidden = !other;
    $("link_note").textContent = other ? text("other_host", { host: other, here: location.host }) : "";
  }

  function drawFile() {
    const { file } = state;
    if (!PUT) {
      const again = Boolean(state.result) && state.result.kind === "fetched";
      $("go").textContent = text(again ? "fetch_again" : "fetch");
      $("go").classList.toggle("main", !again);
      return;
    }
    const digest = (found) => (found === undefined ? text("working") : found || text("insecure"));
    const missing = state.missing ? [["file", text("choose_first"), "note"]] : [];
    facts($("facts"), file ? [
      ["file", file.name], ["size", text("bytes", { length: count(file.length) })],
      ...(file.length > LIMIT ? [] : [["digest", digest(file.digest), file.digest && "code"]]),
      ...(file.several ? [["choose", text("several"), "note"]] : []),
    ] : missing);
  }

  function draw() {
    const show = { receipt: showReceipt, fetched: showFetched, refused: showRefused };
    translate(PUT ? "put_title" : "get_title");
    drawLink();
    drawFile();
    drawProgress();
    drawResult(state.result, (result) => (show[result.kind] || showFault)(result));
    $("go").setAttribute("aria-disabled", String(Boolean(state.busy)));
  }

  // ---- user actions

  function drops() {
    const zone = $("zone");
    const over = (is) => (event) => {
      event.preventDefault();
      zone.classList.toggle("over", is && zone.contains(event.target));
    };
    document.addEventListener("dragover", over(true));
    document.addEventListener("dragleave", over(false));
    document.addEventListener("drop", (event) => {
      over(false)(event);
      if (event.dataTransfer) takeFile(event.dataTransfer.files);
    });
  }

  speaks(draw);
  $("go").addEventListener("click", go);
  $("stop").addEventListener("click", () => request && request.abort());
  $("paste").addEventListener("submit", (event) => {
    event.preventDefault();
    const hash = `#${$("pasted").value.trim()}`;
    if (hash === location.hash) takeLink();
    location.hash = hash;
    $("pasted").value = "";
  });
  if (PUT) {
    // cleared first, so that choosing the same file again reads it again
    $("file").addEventListener("click", () => { $("file").value = ""; });
    $("file").addEventListener("change", () => takeFile($("file").files));
    drops();
  }
  window.addEventListener("hashchange", takeLink);
  takeLink();
})();
