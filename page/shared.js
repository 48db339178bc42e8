"use strict";

// Code that the pages share: the language, texts and nodes, announcements for screen readers, and the meaning of answers.

const Page = (() => {
  let language = /^de\b/i.test(navigator.language) ? "de" : "en";

  // ---- texts and nodes

  const $ = (id) => document.getElementById(id);

  function text(key, values = {}) {
    return TEXTS[language][key].replace(/\{(\w+)\}/g, (_, name) => values[name]);
  }

  function has(key) {
    return key in TEXTS[language];
  }

  function count(number) {
    return number.toLocaleString(language);
  }

  function told(moment, how = { dateStyle: "medium", timeStyle: "long" }) {
    return moment.toLocaleString(language, how);
  }

  /** A moment on this device's clock, followed by UTC. */
  function withUtc(moment) {
    return `${told(moment)} (${moment.toISOString().slice(0, 19).replace("T", " ")} UTC)`;
  }

  function node(name, content, more = {}) {
    const made = document.createElement(name);
    made.append(...[content].flat());
    for (const [key, value] of Object.entries(more)) made.setAttribute(key, value);
    return made;
  }

  function button(id, key, act) {
    const made = node("button", text(key), { type: "button", id });
    made.addEventListener("click", act);
    return made;
  }

  function acts(...buttons) {
    return node("div", buttons, { class: "acts" });
  }

  /** Fills a list of facts: each has the text key of its name, its value, and the value's class. */
  function facts(list, rows) {
    list.replaceChildren(...rows.flatMap(([key, value, kind]) => [
      node("dt", text(key)), node("dd", value, { "data-fact": key, ...(kind && { class: kind }) }),
    ]));
  }

  function list(rows) {
    const made = node("dl", []);
    facts(made, rows);
    return made;
  }

  function announce(words) {
    $("live").textContent = words;
  }

  /** Lets the user save this text as a file. */
  function save(name, content, type = "text/plain") {
    const url = URL.createObjectURL(new Blob([content], { type: `${type};charset=utf-8` }));
    node("a", "", { href: url, download: name }).click();
    setTimeout(() => URL.revokeObjectURL(url), 60000);
  }

  // ---- links and answers

  /**
   * Why a browser can't send this path and query unchanged, or null if it can. A browser removes path segments that are `.` or
   * `..`, and encodes some characters differently.
   */
  function unsendable(target) {
    const sent = new URL(location.origin + target);
    if (sent.pathname + sent.search === target) return null;
    return /\/(\.|%2e){1,2}(\/|$)/i.test(target.split("?")[0]) ? "dots" : "respelled";
  }

  /** A refusal by the office, or null. The answer must consist of exactly one line of the office's form. */
  function refused(status, said) {
    const found = status >= 400 && /^[A-Za-z]+ ([1-9]\d?) [ -~]+\n$/.exec(said);
    return found ? { kind: "refused", number: Number(found[1]), line: said.trim() } : null;
  }

  /** The kind of an answer that does not come from the office. */
  function foreign(status) {
    return { kind: [502, 503, 504].includes(status) ? "away" : "strange", status };
  }

  /** For the number of a refusal: what happened, and the name of the remedy. */
  function refusal(number) {
    return TEXTS[language].refusals[number] || [text("unknown"), "page"];
  }

  /** What happened, and what to do. */
  function explained(what, remedy) {
    return [
      node("p", what, { id: "what" }),
      node("p", [node("strong", `${text("what_to_do")}: `), remedy], { id: "remedy" }),
    ];
  }

  function officeSays(line) {
    return line ? [list([["office_says", line, "code"]])] : [];
  }

  // ---- drawing

  /** Draws a result, or none: `show` returns its tone, its title, and its body. */
  function drawResult(result, show) {
    $("result").hidden = !result;
    if (!result) {
      $("result_body").replaceChildren();
      return;
    }
    const [kind, title, body] = show(result);
    $("result").className = `is-${kind}`;
    $("result").dataset.kind = result.kind;
    $("result_title").textContent = title;
    $("result_body").replaceChildren(...body);
  }

  /** Announces the result that was drawn, and moves the focus to it. */
  function goToResult() {
    announce(`${$("result_title").textContent}. ${$("result_body").firstElementChild.textContent}`);
    $("result_title").focus();
  }

  /** Draws everything that depends only on the language. */
  function translate(title) {
    document.documentElement.lang = language;
    document.title = text(title);
    for (const each of document.querySelectorAll("[data-text]")) each.textContent = text(each.dataset.text);
    for (const each of document.querySelectorAll("[data-label]")) each.setAttribute("aria-label", text(each.dataset.label));
    for (const each of ["de", "en"]) $(each).setAttribute("aria-pressed", String(each === language));
  }

  /** Makes each language button switch the language and redraw everything. */
  function speaks(draw) {
    for (const each of ["de", "en"]) {
      $(each).addEventListener("click", () => {
        language = each;
        announce("");
        draw();
      });
    }
    $("languages").hidden = false;
  }

  return {
    $, text, has, count, told, withUtc, node, button, acts, facts, list, announce, save, unsendable, refused, foreign, refusal, explained,
    officeSays, drawResult, goToResult, translate, speaks,
  };
})();
