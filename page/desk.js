"use strict";

// Parsers for what a clerk types (docs/RULES.md, 2.2 and 5.4). Each is a function from a field's text to its value, or to `bad`
// with the name of the text that says why. Also the desk commands, which are built from these values.

const Desk = (() => {
  const MINUTE = 60000;
  const WEEK = 604800; // seconds: the longest that a link may hold
  const CONTROL = /[\u0000-\u001f\u007f]/;
  const HALF = /[\ud800-\udfff]/u; // half of a letter, which has no spelling in bytes

  function bad(key, values = {}) {
    return { bad: key, values };
  }

  function isBad(value) {
    return Boolean(value && value.bad);
  }

  function like(form, key) {
    return (raw) => (form.test(raw) ? raw : bad(key));
  }

  function size(text) {
    return new TextEncoder().encode(text).length;
  }

  const id = like(/^[A-Za-z0-9_-]{1,64}$/, "bad_id");
  const secret = like(/^[!-~]{1,128}$/, "bad_secret");
  const box = like(/^[a-z0-9.-]{1,63}$/, "bad_box");
  const region = like(/^[a-z0-9-]{1,32}$/, "bad_region");

  /** The secret in a file of one line; the line end may be missing. */
  function secretLine(content) {
    const found = secret(content.replace(/\r?\n$/, ""));
    return isBad(found) ? bad("bad_file") : found;
  }

  /** A host as browsers send it: in lower case, and without the scheme's default port. */
  function host(raw) {
    try {
      const { host: sent } = new URL(`${location.protocol}//${raw}/`);
      return sent === raw && /^[!-~]{1,255}$/.test(raw) ? raw : bad("bad_host");
    } catch {
      return bad("bad_host");
    }
  }

  /** A file's name. */
  function name(raw) {
    if (HALF.test(raw) || CONTROL.test(raw)) return bad("bad_letters");
    return raw && size(raw) <= 1024 ? raw : bad("bad_name");
  }

  /** Names, one per line; empty lines are ignored. */
  function names(raw) {
    const lines = raw.split(/\r?\n/);
    const at = lines.findIndex((line) => line && isBad(name(line)));
    if (at >= 0) return bad("bad_line", { line: at + 1 });
    const found = lines.filter(Boolean);
    return found.length ? found : bad("bad_names");
  }

  /** An office's clock, as minutes east of UTC. */
  function clock(raw) {
    const found = /^([+\u2212-])(\d\d):([0-5]\d)$/.exec(raw.trim());
    const minutes = found ? 60 * Number(found[2]) + Number(found[3]) : Infinity;
    return minutes <= 840 ? (found[1] === "+" ? minutes : -minutes) : bad("bad_clock");
  }

  function clockText(east) {
    const [hours, minutes] = [Math.floor(Math.abs(east) / 60), Math.abs(east) % 60];
    return `${east < 0 ? "-" : "+"}${String(hours).padStart(2, "0")}:${String(minutes).padStart(2, "0")}`;
  }

  /** Parses a field for date and time, on a clock that is `east` minutes east of UTC. */
  function moment(east) {
    return (raw) => {
      const found = /^(\d{4})-(\d\d)-(\d\d)T(\d\d):(\d\d)(?::(\d\d))?$/.exec(raw);
      if (!found) return bad("bad_moment");
      const [year, month, day, hour, minute, second] = found.slice(1).map((digits) => Number(digits || 0));
      const date = new Date(Date.UTC(year, month - 1, day, hour, minute, second) - MINUTE * east);
      const there = date.getUTCFullYear();
      return there >= 1970 && there <= 9999 && year >= 1000 ? date : bad("bad_moment");
    };
  }

  /** The text of such a field for a moment, on that clock. */
  function fieldOf(date, east) {
    return new Date(date.getTime() + MINUTE * east).toISOString().slice(0, 16);
  }

  /** A time of day in minutes: 00:00 to 24:00. */
  function hour(raw) {
    const found = /^(\d\d?):?([0-5]\d)$/.exec(raw.trim());
    const minutes = found ? 60 * Number(found[1]) + Number(found[2]) : Infinity;
    return minutes <= 1440 ? minutes : bad("bad_hour");
  }

  function number(most, key) {
    return (raw) => (/^\d{1,9}$/.test(raw.trim()) && Number(raw) <= most ? Number(raw) : bad(key));
  }

  /** A rule for names: any name, up to 8 endings, or one beginning. */
  function rule(kind) {
    return (raw) => {
      if (kind === "any") return "any";
      const parts = kind === "ends" ? raw.split(",").map((part) => part.trim()) : [raw.trim()];
      const longest = kind === "ends" ? 32 : 64;
      const fits = (part) => part && size(part) <= longest && ![/[ ,]/, CONTROL, HALF].some((form) => form.test(part));
      return parts.length <= 8 && parts.every(fits) ? `${kind} ${parts.join(",")}` : bad(`bad_${kind}`);
    };
  }

  function hourText(minutes) {
    return [Math.floor(minutes / 60), minutes % 60].map((part) => String(part).padStart(2, "0")).join("");
  }

  const command = {
    add_box: ({ box: where, opens, closes, days, from, to, quota, files, mode, rule: taken }) => ["box add", where,
      Sign.moment(opens), Sign.moment(closes), days, hourText(from), hourText(to), quota * 1000000, files, mode, taken].join(" "),
    close_box: ({ box: where, moment: closes }) => `box close ${where} ${Sign.moment(closes)}`,
    add_key: ({ id: key, role, secret: its }) => `key add ${key} ${role} ${its}`,
    revoke_key: ({ id: key }) => `key revoke ${key}`,
    drop_file: ({ box: where, name: file }) => `file drop ${where} ${file}`,
  };

  /** Rows as CSV, as `drop links` writes them: fields are quoted only if necessary. */
  function table(rows) {
    const field = (content) => (/[",]/.test(content) ? `"${content.replaceAll('"', '""')}"` : content);
    return rows.map((row) => `${row.map(field).join(",")}\n`).join("");
  }

  return {
    WEEK, bad, isBad, id, secretLine, secret, box, region, host, name, names, clock, clockText, moment, fieldOf, hour, number, rule,
    command, table,
  };
})();
