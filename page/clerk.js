"use strict";

// The script of clerk.html. With a key of the office, it signs links in the browser, and also desk commands, which it sends to
// its own origin. The key's secret stays in this page's memory, as a key object of the browser, until the user leaves the page.
// `draw` redraws the page from `state` whenever that changes.

(() => {
  const {
    $, text, has, count, told, withUtc, node, button, acts, facts, list, announce, save, unsendable, refused, foreign, refusal, explained,
    officeSays, drawResult, goToResult, translate, speaks,
  } = Page;
  const { bad, isBad } = Desk;
  const MANY = 100; // of more links it is shown how many are made
  const STEP = 20; // links between two looks at what is shown
  const SHOWN = 200; // links that are shown; the file has all
  const BEFORE = 300; // seconds before now from which a command holds, and
  const HOLDS = 600; // for how many: so clocks may be five minutes apart
  const ANSWERED = 60000; // milliseconds within which an answer comes
  const WITHOUT_AGAIN = [19, 20, 21, 24, 35, 36];
  const state = { signer: null, role: null, east: 0, host: "", region: "", busy: null, result: null, faults: {} };

  // ---- fields

  /** For each form, its fields and their parsers. A parser gets the field's text and the values of the fields before it. */
  const fields = {
    use_key: () => ({ id: Desk.id, clock: Desk.clock, host: Desk.host, region: Desk.region }),
    links: () => ({ box: Desk.box, names: Desk.names, start: Desk.moment(state.east), end: endOf("start", true) }),
    add_box: () => ({
      box: Desk.box, opens: Desk.moment(state.east), closes: endOf("opens", false), days: readDays, from: Desk.hour, to: endOfDay,
      quota: Desk.number(1000000, "bad_quota"), files: Desk.number(1000000, "bad_files"), rule: Desk.rule(chosen("rule")),
    }),
    close_box: () => ({ box: Desk.box, moment: Desk.moment(state.east) }),
    add_key: () => ({ id: Desk.id }),
    revoke_key: () => ({ id: Desk.id }),
    drop_file: () => ({ box: Desk.box, name: Desk.name }),
  };
  const hints = {
    use_key_clock: clockHint, links_names: () => text("names_hint"), links_start: momentHint, links_end: momentHint,
    add_box_opens: momentHint, add_box_closes: momentHint, close_box_moment: momentHint, add_box_to: hoursHint,
    add_box_box: () => text("box_hint"), add_box_rule: () => text("rule_hint"), use_key_host: () => text("host_hint"),
  };

  /** Parses a moment that must be after the moment of another field; for a link, at most a week after it. */
  function endOf(start, isLink) {
    return (raw, values) => {
      const end = Desk.moment(state.east)(raw);
      if (isBad(end) || !values[start]) return end;
      const seconds = (end - values[start]) / 1000;
      if (seconds <= 0) return bad("bad_order");
      return isLink && seconds > Desk.WEEK ? bad("bad_week") : end;
    };
  }

  function endOfDay(raw, { from }) {
    const to = Desk.hour(raw);
    return isBad(to) || from === undefined || from < to ? to : bad("bad_hours");
  }

  function weekdays() {
    return Array.from({ length: 7 }, (_, at) => $(`add_box_day_${at}`));
  }

  function readDays() {
    const days = weekdays().map((day) => (day.checked ? "1" : "0")).join("");
    return days.includes("1") ? days : bad("bad_days");
  }

  function chosen(name) {
    return document.querySelector(`input[name="${name}"]:checked`).value;
  }

  /** Returns a form's values, or null if a field is bad. Each bad field shows its fault, and the first one gets the focus. */
  function read(form) {
    const values = {};
    const faults = {};
    for (const [name, reads] of Object.entries(fields[form]())) {
      const value = reads($(`${form}_${name}`).value, values);
      if (isBad(value)) faults[`${form}_${name}`] = value;
      else values[name] = value;
    }
    return toldFaults(faults) ? null : values;
  }

  /** Shows the faults of a form's fields, and returns whether there are any. */
  function toldFaults(faults) {
    state.faults = faults;
    drawFields();
    const [first] = Object.keys(faults);
    if (!first) return false;
    announce(`${nameOf(first)}: ${faultText(faults[first])}`);
    const field = $(first === "add_box_days" ? "add_box_day_0" : first);
    const folded = field.closest("details");
    if (folded) folded.open = true;
    field.focus();
    return true;
  }

  function nameOf(id) {
    return ($(id).querySelector("legend") || document.querySelector(`label[for="${id}"]`)).textContent;
  }

  function faultText(fault) {
    return text(fault.bad, fault.values);
  }

  // ---- clocks

  function byOffice(moment) {
    const there = new Date(moment.getTime() + 60000 * state.east);
    const words = told(there, { timeZone: "UTC", dateStyle: "medium", timeStyle: "short" });
    return text("by_office", { moment: words, clock: Desk.clockText(state.east) });
  }

  /** A moment on both clocks. */
  function byBoth(moment) {
    return `${byOffice(moment)}\n${text("by_device", { moment: withUtc(moment) })}`;
  }

  function momentHint(raw) {
    const moment = Desk.moment(state.east)(raw);
    return isBad(moment) ? "" : text("moment_hint", { here: told(moment), utc: Sign.moment(moment) });
  }

  function clockHint(raw) {
    const east = Desk.clock(raw);
    if (isBad(east)) return "";
    const now = new Date();
    const there = new Date(now.getTime() + 60000 * east);
    const short = { dateStyle: "medium", timeStyle: "short" };
    return text("clock_hint", { there: told(there, { ...short, timeZone: "UTC" }), here: told(now, short) });
  }

  /** The hours of the first day, on this device's clock. */
  function hoursHint(raw) {
    const [from, to] = [$("add_box_from").value, raw].map(Desk.hour);
    const opens = Desk.moment(state.east)($("add_box_opens").value);
    if ([from, to, opens].some(isBad)) return "";
    const day = Math.floor((opens.getTime() + 60000 * state.east) / 86400000) * 86400000 - 60000 * state.east;
    const shown = (minutes) => told(new Date(day + 60000 * minutes), { weekday: "short", hour: "2-digit", minute: "2-digit" });
    return text("hours_hint", { from: shown(from), to: shown(to) });
  }

  // ---- the key

  /** The secret from the text field or from the file. */
  async function givenSecret() {
    const [file] = $("use_key_file").files;
    const typed = $("use_key_secret").value;
    if (file && typed) return bad("bad_both");
    if (!file) return Desk.secret(typed);
    if (file.size > 130) return bad("bad_file");
    return Desk.secretLine(await file.text().catch(() => ""));
  }

  async function useKey() {
    const values = read("use_key");
    const secret = values && (await givenSecret());
    if (!values || state.busy) return;
    if (isBad(secret)) {
      const field = ["bad_file", "bad_both"].includes(secret.bad) ? "use_key_file" : "use_key_secret";
      toldFaults({ [field]: secret });
      return;
    }
    for (const id of ["use_key_secret", "use_key_file"]) $(id).value = "";
    const signer = await Sign.signerOf(values.id, secret);
    Object.assign(state, { signer, east: values.clock, host: values.host, region: values.region });
    ask({ form: "use_key", line: "" });
  }

  /**
   * What the answer to an empty command says about the key. The office never executes an empty command: it refuses a clerk's key
   * with 35, and a key of role `link` with 24.
   */
  function keyed(result) {
    const role = result.kind === "refused" && { 35: "clerk", 24: "link" }[result.number];
    if (!role) return result;
    state.role = role;
    setMoments();
    return role === "clerk" ? { ...result, kind: "keyed" } : result;
  }

  function setMoments() {
    const now = new Date(Math.floor(Date.now() / 60000) * 60000);
    const later = (days) => new Date(now.getTime() + days * 86400000);
    const moments = { links_start: now, links_end: later(7), add_box_opens: now, add_box_closes: later(30), close_box_moment: now };
    for (const [id, moment] of Object.entries(moments)) $(id).value = Desk.fieldOf(moment, state.east);
  }

  function forget() {
    Object.assign(state, { signer: null, role: null, busy: null, result: null, faults: {} });
    for (const id of ["use_key_secret", "use_key_file"]) $(id).value = "";
    draw();
  }

  // ---- commands

  const orders = {
    add_box: (values) => ({ ...values, mode: chosen("mode") }),
    add_key: (values) => ({ ...values, role: chosen("role"), secret: Sign.randomSecret() }),
  };

  function command(form) {
    if (state.busy) return;
    const values = read(form);
    if (!values) return;
    const order = orders[form] ? orders[form](values) : values;
    ask({ form, values: order, line: Desk.command[form](order) });
  }

  /** Sends the office one command, signed at this moment; `times` counts how often it was sent. */
  async function ask(order) {
    const asked = { order };
    order.times = (order.times || 0) + 1;
    Object.assign(state, { busy: asked, result: null });
    draw();
    announce(text("asking"));
    const result = await answerTo(order.line);
    if (state.busy === asked) finish({ ...(order.form === "use_key" ? keyed(result) : result), order });
  }

  async function answerTo(line) {
    const start = new Date(Date.now() - 1000 * BEFORE);
    const { host } = location;
    const order = { method: "POST", path: "/", desk: line, host, region: state.region, start, expires: HOLDS };
    const target = await Sign.target(state.signer, order);
    try {
      const signal = AbortSignal.timeout(ANSWERED);
      const how = { method: "POST", cache: "no-store", credentials: "omit", redirect: "manual", signal };
      const answer = await fetch(location.origin + target, how);
      return meaning(answer.status, await answer.text());
    } catch {
      return { kind: "lost" };
    }
  }

  function meaning(status, said) {
    if (status === 200 && said === "done\n") return { kind: "done" };
    return refused(status, said) || (status === 403 ? { kind: "barred", status } : foreign(status));
  }

  function finish(result) {
    Object.assign(state, { busy: null, result });
    draw();
    goToResult();
  }

  // ---- links

  async function makeLinks() {
    if (state.busy) return;
    const values = read("links");
    if (!values) return;
    const making = { all: values.names.length, done: 0, told: 0, shown: values.names.length > MANY };
    Object.assign(state, { busy: making, result: null });
    draw();
    if (making.shown) {
      $("stop").focus();
      announce(text("links_progress"));
    }
    const order = { ...values, method: chosen("method"), expires: (values.end - values.start) / 1000 };
    const rows = [];
    for (const name of values.names) {
      rows.push(await linkTo(name, order));
      if (making.shown && rows.length % STEP === 0) await moved(making, rows.length);
      if (state.busy !== making) return;
    }
    finish({ kind: "links", rows, ...order });
  }

  /** One link, as `drop link` prints it, and the address of its page, if a browser can send the link. */
  async function linkTo(name, { method, box, start, expires }) {
    const { host, region } = state;
    const target = await Sign.target(state.signer, { method, path: `/${box}/${name}`, host, region, start, expires });
    const link = `http://${host}${target}`;
    return { name, link, page: unsendable(target) ? "" : `${location.protocol}//${host}/${method.toLowerCase()}.html#${link}` };
  }

  /** Shows how many links are finished, and lets the browser draw that. */
  async function moved(making, done) {
    making.done = done;
    drawProgress();
    const quarter = Math.floor((4 * done) / making.all);
    if (quarter > making.told) announce(soFar());
    making.told = quarter;
    await new Promise((goOn) => { setTimeout(goOn); });
  }

  function soFar() {
    const { done, all } = state.busy;
    return text("links_so_far", { done: count(done), all: count(all) });
  }

  function stop() {
    if (state.busy) finish({ kind: "stopped" });
  }

  // ---- what is shown of a result

  async function copy(content, shown) {
    try {
      await navigator.clipboard.writeText(content);
      $("copied").textContent = text("copied");
    } catch {
      getSelection().selectAllChildren(shown);
      $("copied").textContent = text("copy_by_hand");
    }
    announce($("copied").textContent);
  }

  function copied() {
    return node("p", "", { id: "copied", class: "small" });
  }

  /** The secret of a key that was added, or may have been. */
  function newSecret({ order }) {
    if (order.form !== "add_key") return [];
    const { id, secret } = order.values;
    const rows = list([["key_id", id], ["secret", secret, "code"]]);
    return [
      rows, node("p", text("secret_once"), { class: "note" }), copied(),
      acts(button("copy_secret", "copy_secret", () => copy(secret, rows.querySelector(".code"))),
        button("keep", "save_secret", () => save(text("secret_name", { id }), `${secret}\n`))),
    ];
  }

  /** What was done, with its moments on both clocks. */
  function showDone(result) {
    const { form, values } = result.order;
    const { opens, closes = values.moment } = values;
    const moments = [["from_then", opens], ["until_then", closes]].filter(([, moment]) => moment);
    const rows = moments.map(([key, moment]) => [key, byBoth(moment)]);
    const words = text(`done_${form}`, values);
    return ["good", text("done"), [node("p", words, { id: "lead" }), ...(rows.length ? [list(rows)] : []), ...newSecret(result)]];
  }

  function showKeyed() {
    return ["good", text("key_right_title"), [node("p", text("key_right"), { id: "lead" })]];
  }

  /** What happened and what to do, for this refusal number and this form. */
  function showRefused(result) {
    const { number, line, order } = result;
    const key = [`desk_${number}_${order.form}`, `desk_${number}`].find(has);
    const here = told(new Date());
    const maybeDone = number === 40 || (number === 36 && order.times > 1);
    const [what, remedy] = key ? [text(key), text(`${key}_do`, { here })] : [refusal(number)[0], text("desk_other_do")];
    return ["bad", text("refused", { number }), [
      ...explained(what, remedy), ...officeSays(line), ...(number === 40 ? unsure(order) : []),
      ...(maybeDone ? newSecret(result) : []), ...again(result, number),
    ]];
  }

  function showFault(result) {
    const { kind, status, order } = result;
    const key = [`${kind}_desk`, kind].find(has);
    const maybeDone = kind !== "barred";
    return ["bad", text(has(`${kind}_desk_title`) ? `${kind}_desk_title` : `${kind}_title`), [
      node("p", text(key, { status }), { id: "what" }),
      ...(maybeDone ? [...unsure(order), ...newSecret(result)] : []), ...again(result),
    ]];
  }

  /** A warning that this command may have been executed; none for checking the key, which changes nothing. */
  function unsure({ form }) {
    if (form === "use_key") return [];
    const words = [text("unsure"), ...(form === "drop_file" ? [text("unsure_drop")] : [])];
    return [node("p", words.join(" "), { class: "note", id: "unsure" })];
  }

  function again({ order }, number) {
    return WITHOUT_AGAIN.includes(number) ? [] : [acts(button("again", "again", () => state.signer && !state.busy && ask(order)))];
  }

  function showStopped() {
    return ["bad", text("stopped_title"), [node("p", text("stopped_links"), { id: "what" })]];
  }

  function linkItem({ name, link, page }, at) {
    const shown = node("code", page || link);
    const copies = button(`copy_${at}`, "copy", () => copy(page || link, shown));
    copies.setAttribute("aria-label", text(page ? "copy_for" : "copy_link_for", { name }));
    const note = page ? [] : [node("p", text("no_page"), { class: "note" })];
    return node("li", [node("strong", name), ...note, shown, copies]);
  }

  /** Notes on names that may be mistakes, and a note if not all links are shown. */
  function linkNotes(rows) {
    const names = rows.map(({ name }) => name);
    const keys = [
      ...(names.some((name) => name !== name.trim()) ? ["blanks_note"] : []),
      ...(new Set(names).size < names.length ? ["twice_note"] : []),
      ...(rows.length > SHOWN ? ["links_shown"] : []),
    ];
    return keys.map((key) => node("p", text(key, { shown: count(SHOWN) }), { class: "note" }));
  }

  function linksTable({ rows, method, box, start, expires }) {
    const head = ["method", "box", "name", "start", "expires", "link", "page"];
    const date = Sign.moment(start);
    return Desk.table([head, ...rows.map(({ name, link, page }) => [method, box, name, date, String(expires), link, page])]);
  }

  function showLinks(result) {
    const { rows, method, box, start, end } = result;
    const all = node("ol", rows.slice(0, SHOWN).map(linkItem), { class: "links", id: "made" });
    const addresses = () => rows.map(({ page, link }) => `${page || link}\n`).join("");
    const lead = text(method === "PUT" ? "links_put_lead" : "links_get_lead");
    return ["good", rows.length === 1 ? text("one_link") : text("some_links", { count: count(rows.length) }), [
      node("p", lead, { id: "lead" }), list([["box", box], ["from_then", byBoth(start)], ["until_then", byBoth(end)]]),
      acts(button("copy_all", "copy_all", () => copy(addresses(), all)),
        button("keep", "save_links", () => save(text("links_name"), linksTable(result), "text/csv"))),
      copied(), ...linkNotes(rows), all,
    ]];
  }

  // ---- drawing

  const shows = { keyed: showKeyed, done: showDone, refused: showRefused, links: showLinks, stopped: showStopped };

  function drawFields() {
    for (const field of document.querySelectorAll(".field :is(input, textarea), #add_box_days")) {
      const { id } = field;
      const fault = state.faults[id];
      $(`${id}_bad`).textContent = fault ? faultText(fault) : "";
      if (field.tagName !== "FIELDSET") field.setAttribute("aria-invalid", String(Boolean(fault)));
      if (hints[id]) $(`${id}_hint`).textContent = hints[id](field.value);
    }
    weekdays().forEach((field, at) => {
      const day = new Date(Date.UTC(2024, 0, 1 + at)); // a Monday, and the days behind it
      field.nextSibling.textContent = told(day, { weekday: "long", timeZone: "UTC" });
    });
  }

  function drawKey() {
    $("insecure").hidden = Sign.possible;
    $("key").hidden = !Sign.possible;
    $("use_key").hidden = Boolean(state.role);
    $("forget").hidden = !state.role;
    $("key_note").hidden = state.role !== "link";
    facts($("key_facts"), state.role ? [
      ["key_id", state.signer.id], ["role", text(`role_${state.role}`)], ["its_clock", `UTC${Desk.clockText(state.east)}`],
      ["link_host", state.host],
    ] : []);
  }

  function drawProgress() {
    const { busy } = state;
    $("progress").hidden = !busy || !busy.shown;
    if ($("progress").hidden) return;
    $("bar").value = (100 * busy.done) / busy.all;
    $("so_far").textContent = soFar();
  }

  function draw() {
    translate("clerk_title");
    drawKey();
    $("work").hidden = !state.role;
    for (const task of document.querySelectorAll("[data-desk]")) task.hidden = state.role !== "clerk";
    drawFields();
    drawProgress();
    drawResult(state.result, (result) => (shows[result.kind] || showFault)(result));
    for (const each of document.querySelectorAll("[type=submit]")) each.setAttribute("aria-disabled", String(Boolean(state.busy)));
  }

  // ---- setup when the page is loaded

  /** Adds to each field the elements for its hint and its fault. */
  function furnish() {
    for (let at = 0; at < 7; at += 1) {
      const box = node("input", [], { type: "checkbox", id: `add_box_day_${at}`, checked: "" });
      $("add_box_days").append(node("label", [box, node("span", "")], { class: "choice" }));
    }
    for (const field of document.querySelectorAll(".field :is(input, textarea), #add_box_days")) {
      const { id } = field;
      const places = [...(hints[id] ? [[`${id}_hint`, "small"]] : []), [`${id}_bad`, "bad"]];
      const spans = places.map(([name, kind]) => node("span", "", { id: name, class: kind }));
      if (field.tagName === "FIELDSET") field.append(...spans);
      else field.after(...spans);
      field.setAttribute("aria-describedby", places.map(([name]) => name).join(" "));
    }
  }

  /** Fills in the values that the address has after its #: never a secret. */
  function preset() {
    const given = new URLSearchParams(location.hash.slice(1));
    const east = Number(given.get("east") || 0);
    $("use_key_id").value = given.get("key") || "";
    $("use_key_host").value = given.get("host") || location.host;
    $("use_key_region").value = given.get("region") || "us-east-1";
    $("use_key_clock").value = Desk.clockText(Number.isInteger(east) ? east : 0);
  }

  const submits = { use_key: useKey, links: makeLinks };
  for (const form of document.forms) {
    form.addEventListener("submit", (event) => {
      event.preventDefault();
      (submits[form.id] || (() => command(form.id)))();
    });
    form.addEventListener("input", drawFields);
  }
  $("forget").addEventListener("click", () => {
    forget();
    $("key_title").focus();
    announce(text("forgotten"));
  });
  $("stop").addEventListener("click", stop);
  window.addEventListener("pagehide", forget);
  furnish();
  preset();
  window.addEventListener("hashchange", () => {
    preset();
    drawFields();
  });
  speaks(draw);
  draw();
})();
