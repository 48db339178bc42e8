"use strict";

// Links as `drop link` writes them (docs/RULES.md, 1): presigned for S3 with Signature Version 4, using the browser's own
// cryptography, which is available to pages only over https and on the local machine.

const Sign = (() => {
  const HMAC = { name: "HMAC", hash: "SHA-256" };
  const possible = Boolean(globalThis.isSecureContext && globalThis.crypto && crypto.subtle);

  function bytes(text) {
    return new TextEncoder().encode(text);
  }

  function hex(found) {
    return Array.from(new Uint8Array(found), (byte) => byte.toString(16).padStart(2, "0")).join("");
  }

  /** UriEncode: letters, digits and `-._~` stay; every other byte becomes `%` and two upper-case hex digits. */
  function encoded(text) {
    return encodeURIComponent(text).replace(/[!'()*]/g, (sign) => `%${sign.charCodeAt(0).toString(16).toUpperCase()}`);
  }

  /** A moment in the format of links: 20130524T000000Z. */
  function moment(date) {
    return `${date.toISOString().slice(0, 19).replace(/[-:]/g, "")}Z`;
  }

  /** A key object of the browser, which can sign and whose bytes cannot be exported. */
  function keyOf(material) {
    return crypto.subtle.importKey("raw", material, HMAC, false, ["sign"]);
  }

  function hmac(key, text) {
    return crypto.subtle.sign("HMAC", key, bytes(text));
  }

  /** A signer: the id of a key, its secret as a key object of the browser, and the signing keys derived from it, by scope. */
  async function signerOf(id, secret) {
    return { id, root: await keyOf(bytes(`AWS4${secret}`)), keys: new Map() };
  }

  /** The signing key for a day and a region. */
  async function signingKey(signer, scope) {
    if (!signer.keys.has(scope)) {
      let key = signer.root;
      for (const part of scope.split("/")) key = await keyOf(await hmac(key, part));
      signer.keys.set(scope, key);
    }
    return signer.keys.get(scope);
  }

  /** The target of a link: its path and query. An order with `desk` is a desk command. */
  async function target(signer, { method, path, desk, host, region, start, expires }) {
    const date = moment(start);
    const scope = `${date.slice(0, 8)}/${region}/s3/aws4_request`;
    const params = [
      ["X-Amz-Algorithm", "AWS4-HMAC-SHA256"], ["X-Amz-Credential", `${signer.id}/${scope}`], ["X-Amz-Date", date],
      ["X-Amz-Expires", String(expires)], ["X-Amz-SignedHeaders", "host"], ...(desk === undefined ? [] : [["desk", desk]]),
    ];
    const where = path.split("/").map(encoded).join("/");
    const query = params.map(([name, value]) => `${name}=${encoded(value)}`).join("&");
    const request = [method, where, query, `host:${host}`, "", "host", "UNSIGNED-PAYLOAD"].join("\n");
    const digest = hex(await crypto.subtle.digest("SHA-256", bytes(request)));
    const signed = await hmac(await signingKey(signer, scope), ["AWS4-HMAC-SHA256", date, scope, digest].join("\n"));
    return `${where}?${query}&X-Amz-Signature=${hex(signed)}`;
  }

  /** A new random secret: 32 bytes, as hex. */
  function randomSecret() {
    return hex(crypto.getRandomValues(new Uint8Array(32)));
  }

  return { possible, signerOf, target, moment, randomSecret };
})();
