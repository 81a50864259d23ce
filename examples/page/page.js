// A page that shows and changes a registry. It sends requests only to its own origin, where nginx serves the registry too.
// Strings from the registry become text nodes: the page never parses a string as HTML.

/** A setting: its segment in the path, and its member in requests and responses. */
const LEVEL = {
  name: "Compatibility level",
  segment: "config",
  responseMember: "compatibilityLevel",
  requestMember: "compatibility",
  values: ["BACKWARD", "BACKWARD_TRANSITIVE", "FORWARD", "FORWARD_TRANSITIVE", "FULL", "FULL_TRANSITIVE", "NONE"],
};
const MODE = { name: "Mode", segment: "mode", responseMember: "mode", requestMember: "mode", values: ["READWRITE", "READONLY"] };
const SETTINGS = [LEVEL, MODE];

/** The name of a subject's setting. Without a subject, it is the name of the global setting. */
function settingName(setting, subject) {
  return subject === undefined ? `Global ${setting.name.toLowerCase()}` : setting.name;
}

/** Error codes: the mode, or the compatibility level, rejects the write. */
const NOT_PERMITTED = 42205;
const INCOMPATIBLE = 409;

// ---- Requests ----

/** An error response, or no response. If `isOutcomeUnknown`, a write may have been applied. */
class Fault extends Error {
  constructor(code, message, isOutcomeUnknown = false) {
    super(message);
    this.code = code;
    this.isOutcomeUnknown = isOutcomeUnknown;
  }
}

/** The path of these segments, percent-encoded. */
function pathOf(...parts) {
  // browsers remove such a segment from a path, even if it is escaped
  if (parts.some((part) => part === "." || part === "..")) throw new Fault("", "A browser can't request a subject named . or ..");
  return "/" + parts.map(encodeURIComponent).join("/");
}

/** Sends a request. Returns the JSON of a successful response, otherwise throws a `Fault`. */
async function sendRequest(method, path, body, headers = {}) {
  let response, text;
  try {
    response = await fetch(path, { method, headers, body: body && JSON.stringify(body), cache: "no-store" });
    text = await response.text();
  } catch {
    throw new Fault("", "No response", true);
  }
  const json = parsedJson(text);
  if (response.ok && json !== undefined) return json;
  const otherMessage = (!response.ok && response.statusText) || "This response isn't from the registry";
  const { error_code: code = response.status, message = otherMessage } = json ?? {};
  throw new Fault(code, message, response.status >= 500);
}

/** The JSON value of a text, or undefined if the text isn't JSON. */
function parsedJson(text) {
  try {
    return JSON.parse(text);
  } catch {
    return undefined;
  }
}

const read = (path) => sendRequest("GET", path);

const MAX_CONCURRENT_REQUESTS = 4;

/** Reads a resource that may not exist. If the status is 404, returns `fallback`. */
async function readOr(fallback, path) {
  try {
    return await read(path);
  } catch (fault) {
    if (String(fault.code).startsWith("404")) return fallback;
    throw fault;
  }
}

/** Calls the action with each item, a few at a time. Returns the results in the order of the items. */
async function mapConcurrently(items, action) {
  const results = [];
  let next = 0;
  async function work() {
    while (next < items.length) {
      const at = next++;
      results[at] = await action(items[at]);
    }
  }
  await Promise.all(Array.from({ length: MAX_CONCURRENT_REQUESTS }, work));
  return results;
}

/**
 * Sends writes. A write keeps its retry key until it gets a response. The tab's session storage holds the keys, so they
 * survive a reload.
 */
const writes = (() => {
  const STORED = "avroreg: writes without a response";
  const attempts = new Map(stored());

  function stored() {
    try {
      return parsedJson(sessionStorage.getItem(STORED)) ?? [];
    } catch {
      return [];
    }
  }

  function store() {
    const entries = [...attempts].map(([request, { key, times }]) => [request, { key, times }]);
    try {
      sessionStorage.setItem(STORED, JSON.stringify(entries));
    } catch {
      // if the storage is full or turned off, the keys last until a reload
    }
  }

  function newKey() {
    return Array.from(crypto.getRandomValues(new Uint8Array(16)), (byte) => byte.toString(16).padStart(2, "0")).join("");
  }

  function forget(request) {
    attempts.delete(request);
    store();
  }

  async function send(request, attempt) {
    attempt.times += 1;
    store();
    try {
      const reply = await sendRequest(...JSON.parse(request), { "Registry-Retry-Key": attempt.key });
      forget(request);
      return { reply, key: attempt.key, times: attempt.times };
    } catch (fault) {
      if (!fault.isOutcomeUnknown) forget(request);
      fault.key = attempt.key;
      throw fault;
    } finally {
      attempt.inProgress = undefined;
    }
  }

  /**
   * Sends a write. Returns its reply, its key, and how often it was sent. If the same write is in progress already, returns the
   * result of that one.
   */
  function write(method, path, body) {
    const request = JSON.stringify([method, path, body ?? null]);
    const attempt = attempts.get(request) ?? { key: newKey(), times: 0 };
    attempts.set(request, attempt);
    attempt.inProgress ??= send(request, attempt);
    return attempt.inProgress;
  }

  /** The writes without a response that aren't in progress. */
  function withoutResponse() {
    return [...attempts].filter(([, attempt]) => !attempt.inProgress).map(([request, { key }]) => ({ request, key }));
  }

  return { write, withoutResponse, forget };
})();

/** The global value of each setting. */
async function globalSettings() {
  return Promise.all(SETTINGS.map(async (setting) => (await read(pathOf(setting.segment)))[setting.responseMember]));
}

/** For each setting, its value for a subject, and whether the subject has its own value. */
async function settingsOf(subject, globals) {
  return Promise.all(
    SETTINGS.map(async (setting, at) => {
      const own = await readOr(null, pathOf(setting.segment, subject));
      return { setting, value: own ? own[setting.responseMember] : globals[at], isOwn: own !== null };
    }),
  );
}

// ---- Schemas ----

/** Parses a schema. If the browser can, numbers keep all their digits: a default may have more than a JavaScript number holds. */
function schemaOf(text) {
  return JSON.parse(text, (_, value, context) => (typeof value === "number" && JSON.rawJSON ? JSON.rawJSON(context.source) : value));
}

const IS_NAMED = new Set(["record", "enum", "fixed"]);

/** A string unchanged, any other value as JSON, and "" for undefined. */
function plain(value) {
  if (value === undefined) return "";
  return typeof value === "string" ? value : JSON.stringify(value);
}

/** A type on one line. A named type is shown by its name. */
function typeText(type) {
  if (typeof type === "string") return type;
  if (Array.isArray(type)) return type.map(typeText).join(" | ") || "empty union";
  if (type.type === "array") return `array<${typeText(type.items)}>`;
  if (type.type === "map") return `map<${typeText(type.values)}>`;
  const base = IS_NAMED.has(type.type) ? `${type.type} ${type.name}` : type.type;
  if (type.logicalType === undefined) return base;
  const digits = [type.precision, type.scale].filter((number) => number !== undefined).map(plain);
  return `${base} (${plain(type.logicalType)}${digits.length ? " " + digits.join(", ") : ""})`;
}

/** The named types that a type defines, without the types that those define. */
function definitions(type) {
  if (Array.isArray(type)) return type.flatMap(definitions);
  if (type.type === "array") return definitions(type.items);
  if (type.type === "map") return definitions(type.values);
  return IS_NAMED.has(type.type) ? [type] : [];
}

/** Indents a JSON text: each member or item is on its own line. Keeps numbers and the order of members. */
function indented(text) {
  let [depth, before, out] = [0, "", ""];
  for (const token of text.match(/"(?:[^"\\]|\\.)*"|[{}[\],:]|[^\s{}[\],:"]+/g) ?? []) {
    const closes = token === "}" || token === "]";
    const wasOpened = before === "{" || before === "[";
    if (closes) depth -= 1;
    if (wasOpened ? !closes : closes || before === ",") out += "\n" + "  ".repeat(depth);
    out += token === ":" ? ": " : token;
    if (token === "{" || token === "[") depth += 1;
    before = token;
  }
  return out;
}

// ---- Differences ----

/** If the table needs more cells, all lines between the first and the last difference count as different. */
const MAX_CELLS = 4_000_000;

/** The longest common subsequence of two lists of lines, as pairs of indexes in ascending order. */
function commonLines(left, right) {
  const width = right.length + 1;
  if ((left.length + 1) * width > MAX_CELLS) return [];
  const longest = new Uint32Array((left.length + 1) * width);
  for (let i = left.length - 1; i >= 0; i--) {
    for (let j = right.length - 1; j >= 0; j--) {
      longest[i * width + j] =
        left[i] === right[j]
          ? longest[(i + 1) * width + j + 1] + 1
          : Math.max(longest[(i + 1) * width + j], longest[i * width + j + 1]);
    }
  }
  const pairs = [];
  for (let i = 0, j = 0; i < left.length && j < right.length; ) {
    if (left[i] === right[j]) pairs.push([i++, j++]);
    else if (longest[(i + 1) * width + j] >= longest[i * width + j + 1]) i++;
    else j++;
  }
  return pairs;
}

/** The rows of a side-by-side view. A row has for each text the index of a line, or null. Different lines can share a row. */
function sideBySide(left, right) {
  let head = 0;
  let tail = 0;
  while (head < left.length && left[head] === right[head]) head++;
  const most = Math.min(left.length, right.length) - head;
  while (tail < most && left.at(-1 - tail) === right.at(-1 - tail)) tail++;
  const middle = commonLines(left.slice(head, left.length - tail), right.slice(head, right.length - tail));
  const pairs = [
    ...Array.from({ length: head }, (_, at) => [at, at]),
    ...middle.map(([i, j]) => [i + head, j + head]),
    ...Array.from({ length: tail }, (_, at) => [left.length - tail + at, right.length - tail + at]),
    [left.length, right.length],
  ];
  const rows = [];
  let [i, j] = [0, 0];
  for (const [nextLeft, nextRight] of pairs) {
    while (i < nextLeft || j < nextRight) {
      rows.push({ left: i < nextLeft ? i++ : null, right: j < nextRight ? j++ : null, isSame: false });
    }
    if (i < left.length && j < right.length) rows.push({ left: i++, right: j++, isSame: true });
  }
  return rows;
}

// ---- Elements ----

/** Makes an element. Attributes that begin with "on" are event listeners. Strings among the children become text nodes. */
function element(name, attributes = {}, ...children) {
  const node = document.createElement(name);
  for (const [key, value] of Object.entries(attributes)) {
    if (key.startsWith("on")) node.addEventListener(key.slice(2), value);
    else if (value === true) node.setAttribute(key, "");
    else if (value !== false && value !== undefined) node.setAttribute(key, value);
  }
  node.append(...children.flat().filter((child) => child !== null && child !== undefined && child !== false));
  return node;
}

const count = (number, one) => `${number.toLocaleString("en")} ${one}${number === 1 ? "" : "s"}`;

/** The choices that all views share. */
const choices = { deleted: false };

/** The link to a view of this page. */
const address = (parameters) => "#" + new URLSearchParams(choices.deleted ? { ...parameters, deleted: true } : parameters);

/** A message. `kind` is good, bad or open (the outcome is unknown). */
function message(kind, ...content) {
  return element("p", { class: `message ${kind}`, role: kind === "good" ? "status" : "alert", tabindex: -1 }, ...content);
}

function faultMessage(fault) {
  const code = fault.code ? element("b", {}, String(fault.code)) : null;
  const text = fault instanceof Fault ? fault.message : `The page failed: ${fault.message}`;
  const why = fault.code === NOT_PERMITTED && element("small", {}, " The mode READONLY rejects writes.");
  if (!fault.isOutcomeUnknown || !fault.key) return message("bad", code, code && " ", text, ".", why, ...(fault.detail ?? []));
  return message(
    "open", code, code && " ", text,
    `. The write may have been applied. Send it again: it keeps its retry key, ${fault.key}, so it is applied exactly once.`,
  );
}

/** How often a write was sent before it got a response, and its retry key. */
function sentText({ key, times }) {
  const often = times === 1 ? "Sent once" : `Sent ${times} times and applied exactly once`;
  return element("small", {}, ` ${often}, with the retry key ${key}.`);
}

/** Describes a write by its method, path and body. */
function writeText([method, path, body]) {
  const [pathname, query] = path.split("?");
  const [kind, subject, , version] = pathname.slice(1).split("/").map(decodeURIComponent);
  const setting = SETTINGS.find((each) => each.segment === kind);
  if (setting) return `Set the ${settingPhrase(setting, subject)} to ${body[setting.requestMember]}`;
  if (method === "POST") return `Register a schema under ${subject}`;
  const what = version ? `version ${version} of ${subject}` : subject;
  return query ? `Delete ${what} permanently` : `Soft-delete ${what}`;
}

/** The writes without a response, also those from before a reload. Each has a button that retries it with its key. */
function writesWithoutResponse() {
  return writes.withoutResponse().map(({ request, key }) => {
    const parts = JSON.parse(request);
    const outcome = element("div", { class: "outcome" });
    const box = element("div", { class: "message open pending", role: "status" },
      element("p", {}, element("b", {}, "No response yet: "), `${writeText(parts)}. `,
        element("small", {}, `It may have been applied. Its retry key is ${key}.`)));
    async function send() {
      let outcomeMessage;
      try {
        outcomeMessage = message("good", `Done: ${writeText(parts)}.`, sentText(await writes.write(...parts)));
      } catch (fault) {
        if (fault.isOutcomeUnknown) throw fault;
        outcomeMessage = faultMessage(fault);
      }
      await views.show();
      views.showMessage(outcomeMessage);
    }
    box.append(
      element("div", { class: "actions" },
        button("Send again", { onclick: () => act(box, outcome, send) }),
        button("Forget it", { onclick: () => { writes.forget(request); box.remove(); } })),
      outcome);
    return box;
  });
}

/** A button that ignores the second press of a double click. */
function button(text, attributes = {}) {
  const drop = (event) => event.detail > 1 && (event.preventDefault(), event.stopImmediatePropagation());
  const { onclick, ...others } = attributes;
  const node = element("button", { type: "button", onclick: drop, ...others }, text);
  if (onclick) node.addEventListener("click", onclick);
  return node;
}

/** Runs an action of a form, with the form's buttons disabled meanwhile. Shows the resulting message in `outcome`. */
async function act(form, outcome, action) {
  const buttons = [...form.querySelectorAll("button")];
  for (const each of buttons) each.setAttribute("aria-disabled", "true");
  outcome.replaceChildren();
  try {
    const shown = await action();
    if (shown) outcome.replaceChildren(shown);
  } catch (fault) {
    outcome.replaceChildren(faultMessage(fault));
  }
  outcome.scrollIntoView({ block: "nearest" });
  for (const each of buttons) each.removeAttribute("aria-disabled");
}

/** Asks the user a question in a dialog. Returns whether the user confirmed. */
function askToConfirm(question, consequence, yes) {
  const dialog = element("dialog", { "aria-labelledby": "question" });
  dialog.append(
    element("h2", { id: "question" }, question),
    element("p", {}, consequence),
    element("div", { class: "actions" },
      button("Cancel", { autofocus: true, onclick: () => dialog.close("no") }),
      button(yes, { class: "danger", onclick: () => dialog.close("yes") })),
  );
  document.body.append(dialog);
  dialog.showModal();
  return new Promise((resolve) => {
    dialog.addEventListener("close", () => {
      dialog.remove();
      resolve(dialog.returnValue === "yes");
    });
  });
}

function settingPhrase(setting, subject) {
  const name = settingName(setting, subject);
  const phrase = name[0].toLowerCase() + name.slice(1);
  return subject === undefined ? phrase : `${phrase} of ${subject}`;
}

/** The consequence that the user must confirm before a setting gets this value, or null. */
function warning(setting, value, subject) {
  if (setting === LEVEL && value === "NONE") {
    const scope = subject === undefined ? " This applies to each subject without its own level." : "";
    return `NONE accepts every schema, even if consumers can't read messages with it.${scope}`;
  }
  if (setting === MODE && value === "READONLY" && subject === undefined) {
    return "The registry then rejects registrations and deletions, except in subjects with their own mode. Modes can still be set.";
  }
  return null;
}

/** A form that sets a subject's setting. Without a subject, it sets the global setting. */
function settingForm(setting, { value, isOwn }, subject) {
  const id = `${setting.segment}-${subject === undefined ? "all" : "own"}`;
  const chosen = element("select", { id });
  if (!isOwn) chosen.append(element("option", { value: "", selected: true, disabled: true }, `${value} (global)`));
  for (const each of setting.values) {
    chosen.append(element("option", { value: each, selected: isOwn && each === value }, each));
  }
  const outcome = element("div", { class: "outcome" });
  const form = element("form", { class: "setting" },
    element("label", { for: id }, settingName(setting, subject)),
    chosen, button("Set", { type: "submit" }), outcome);

  async function set() {
    const path = subject === undefined ? pathOf(setting.segment) : pathOf(setting.segment, subject);
    let sent;
    try {
      sent = await writes.write("PUT", path, { [setting.requestMember]: chosen.value });
    } catch (fault) {
      // the registry rejected the value, so the form shows the current one again
      if (!fault.isOutcomeUnknown) form.reset();
      throw fault;
    }
    await views.show();
    views.showMessage(message("good", `${settingName(setting, subject)} is ${sent.reply[setting.requestMember]}.`, sentText(sent)));
  }

  form.addEventListener("submit", async (event) => {
    event.preventDefault();
    if (!chosen.value) return;
    const wanted = chosen.value;
    const consequence = warning(setting, wanted, subject);
    const question = `Set the ${settingPhrase(setting, subject)} to ${wanted}?`;
    if (consequence && !(await askToConfirm(question, consequence, `Set ${wanted}`))) form.reset();
    else act(form, outcome, set);
  });
  return form;
}

// ---- A schema ----

function fieldRows(field, columns) {
  const cells = {
    Field: element("code", { class: "field" }, field.name),
    Type: element("code", {}, typeText(field.type)),
    Default: "default" in field ? element("code", {}, JSON.stringify(field.default)) : element("span", { class: "faint" }, "none"),
    Doc: plain(field.doc),
    Aliases: element("code", {}, (field.aliases ?? []).join(", ")),
  };
  const row = element("tr", {}, columns.map((name, at) =>
    element(at === 0 ? "th" : "td", { scope: at === 0 && "row", "data-name": name }, cells[name])));
  const inside = definitions(field.type).map((type) => element("tr", { class: "inside" },
    element("td", { colspan: columns.length }, element("details", {},
      element("summary", {}, element("code", {}, typeText(type)), element("span", { class: "faint" }, ` ${sizeText(type)}`)),
      definition(type)))));
  return [row, ...inside];
}

function sizeText(type) {
  if (type.type === "record") return count(type.fields.length, "field");
  return type.type === "enum" ? count(type.symbols.length, "symbol") : count(Number(plain(type.size)), "byte");
}

function fieldTable(fields) {
  const columns = ["Field", "Type", "Default"];
  if (fields.some((field) => field.doc !== undefined)) columns.push("Doc");
  if (fields.some((field) => field.aliases)) columns.push("Aliases");
  return element("table", { class: "fields" },
    element("thead", {}, element("tr", {}, columns.map((name) => element("th", { scope: "col" }, name)))),
    element("tbody", {}, fields.flatMap((field) => fieldRows(field, columns))));
}

/** The contents of a named type. */
function definition(type) {
  const facts = [];
  if (type.doc !== undefined) facts.push(element("p", { class: "doc" }, plain(type.doc)));
  if (type.aliases) facts.push(element("p", {}, "Aliases ", element("code", {}, type.aliases.join(", "))));
  if (type.type === "enum") {
    facts.push(element("p", { class: "symbols" }, type.symbols.map((symbol) => [element("code", {}, symbol), " "]).flat()));
    if ("default" in type) facts.push(element("p", {}, "Default ", element("code", {}, plain(type.default))));
  }
  if (type.type === "fixed") facts.push(element("p", {}, `Size ${plain(type.size)}`));
  if (type.type === "record") {
    facts.push(type.fields.length ? fieldTable(type.fields) : element("p", { class: "faint" }, "It has no fields."));
  }
  return element("div", { class: "definition" }, facts);
}

/** A schema as tables of fields. If it isn't a named type, the tables are those of the named types in it. */
function fieldsView(text) {
  const type = schemaOf(text);
  const named = definitions(type);
  const head = element("p", { class: "whole" }, element("code", {}, typeText(type)),
    named.length === 1 && element("span", { class: "faint" }, ` ${sizeText(named[0])}`));
  if (named.length === 1) return [head, definition(named[0])];
  return [head, ...named.map((each) => element("details", { open: true },
    element("summary", {}, element("code", {}, typeText(each)), element("span", { class: "faint" }, ` ${sizeText(each)}`)),
    definition(each)))];
}

function jsonView(text) {
  return [element("pre", { tabindex: 0, "aria-label": "Schema as JSON" }, element("code", {}, indented(text)))];
}

function differenceView(old, oldText, version, text) {
  const [left, right] = [indented(oldText).split("\n"), indented(text).split("\n")];
  const rows = sideBySide(left, right);
  const different = rows.filter((row) => !row.isSame).length;
  const cell = (lines, at, side, sign) => at === null
    ? element("td", { class: `${side} nothing` })
    : element("td", { class: side }, element("span", { class: "sign" }, sign), element("code", {}, lines[at]));
  return [
    element("p", { class: "faint" }, different ? `${different.toLocaleString("en")} of ${count(rows.length, "row")} differ.` : "No line differs."),
    element("table", { class: "difference" },
      element("thead", {}, element("tr", {},
        element("th", { scope: "col" }, `− Version ${old}`), element("th", { scope: "col" }, `+ Version ${version}`))),
      element("tbody", {}, rows.map((row) => element("tr", { class: row.isSame ? "same" : "differs" },
        cell(left, row.left, "left", row.isSame ? "" : "−"), cell(right, row.right, "right", row.isSame ? "" : "+"))))),
  ];
}

// ---- A new schema ----

const drafts = new Map();

/** The versions that are incompatible with a schema, of those with which the level compares it. */
async function incompatibleVersions(subject, level, schema) {
  const live = await readOr([], pathOf("subjects", subject, "versions"));
  const compared = level.endsWith("_TRANSITIVE") ? live : live.slice(-1);
  const replies = await mapConcurrently(compared, (version) =>
    sendRequest("POST", pathOf("compatibility", "subjects", subject, "versions", String(version)), schema));
  return compared.filter((_, at) => !replies[at].is_compatible);
}

/** Names each version that is incompatible with a schema, with a link to the version. */
async function incompatibilityText(subject, schema) {
  const { compatibilityLevel: level } = await read(pathOf("config", subject) + "?defaultToGlobal=true");
  const incompatible = await incompatibleVersions(subject, level, schema);
  if (incompatible.length === 0) return [` The level ${level} accepts it now. Check it again.`];
  const links = incompatible.map((version) => element("a", { href: address({ subject, version }) }, String(version)));
  const listed = links.flatMap((link, at) => [at === 0 ? "" : at === links.length - 1 ? " and " : ", ", link]);
  return [` The level ${level} compares it with `, level.endsWith("_TRANSITIVE") ? "all versions" : "the latest version",
    `. Refused by version${incompatible.length === 1 ? "" : "s"} `, ...listed, "."];
}

/** A form that checks and registers a schema. Without a subject, the form has an input for its name. */
function newSchemaForm(subject) {
  const outcome = element("div", { class: "outcome" });
  const name = element("input", { id: "new-subject", required: true, autocomplete: "off", spellcheck: "false" });
  const text = element("textarea", {
    id: "new-schema", required: true, rows: 10, spellcheck: "false", autocapitalize: "off",
    placeholder: '{"type": "record", "name": "Order", "fields": [{"name": "id", "type": "long"}]}',
    oninput: () => drafts.set(subject, text.value),
  });
  text.value = drafts.get(subject) ?? "";
  const targetSubject = () => subject ?? name.value;
  const schema = () => ({ schema: text.value });

  async function check() {
    const [target, sent] = [targetSubject(), schema()];
    const { is_compatible: isCompatible } = await sendRequest("POST", pathOf("compatibility", "subjects", target, "versions"), sent);
    if (!isCompatible) return message("bad", "Not compatible.", ...(await incompatibilityText(target, sent)));
    const { compatibilityLevel: level } = await read(pathOf("config", target) + "?defaultToGlobal=true");
    return message("good", `Compatible: the level ${level} accepts it.`);
  }

  async function register() {
    const [target, body] = [targetSubject(), schema()];
    let sent;
    try {
      sent = await writes.write("POST", pathOf("subjects", target, "versions"), body);
    } catch (fault) {
      if (fault.code === INCOMPATIBLE) fault.detail = await incompatibilityText(target, body).catch(() => []);
      throw fault;
    }
    const { version } = await sendRequest("POST", pathOf("subjects", target), body);
    drafts.delete(subject);
    await views.go({ subject: target, version });
    views.showMessage(message("good", `Version ${version} of ${target} has this schema, id ${sent.reply.id}.`, sentText(sent)));
  }

  const form = element("form", { class: "new", onsubmit: (event) => event.preventDefault() },
    subject === undefined && [element("label", { for: "new-subject" }, "Subject"), name],
    element("label", { for: "new-schema" }, "Schema"), text);
  const press = (action) => () => {
    if (!form.querySelector("[aria-disabled]") && form.reportValidity()) act(form, outcome, action);
  };
  form.append(
    element("div", { class: "actions" }, button("Check", { onclick: press(check) }),
      button("Register", { class: "main", onclick: press(register) })),
    element("p", { class: "faint" }, "A write keeps its retry key until it gets a response. "
      + "So it is applied exactly once, even after a double click or a reload."),
    outcome);
  return form;
}

// ---- The subjects ----

const COLUMNS = ["Subject", "Latest version", "Schema", ...SETTINGS.map((setting) => setting.name)];
const ROWS_AT_ONCE = 200;

/** Fills rows when they come into view, a few at a time. */
function fillerInView() {
  const fillOf = new WeakMap();
  const waiting = new Set();
  let busy = 0;

  function next() {
    for (const row of waiting) {
      if (busy === MAX_CONCURRENT_REQUESTS) return;
      waiting.delete(row);
      observer.unobserve(row);
      busy += 1;
      fillOf.get(row)().finally(() => {
        busy -= 1;
        next();
      });
    }
  }

  const observer = new IntersectionObserver((entries) => {
    for (const entry of entries) {
      if (entry.isIntersecting) waiting.add(entry.target);
      else waiting.delete(entry.target);
    }
    next();
  });

  function watch(row, fill) {
    fillOf.set(row, fill);
    observer.observe(row);
  }

  return { watch };
}

function subjectRow(subject, isDeleted) {
  return element("tr", { class: isDeleted && "deleted" },
    element("th", { scope: "row" }, element("a", { href: address({ subject }) }, subject),
      isDeleted && [" ", element("span", { class: "tag" }, "soft-deleted")]),
    COLUMNS.slice(1).map((name) => element("td", { "data-name": name }, "…")));
}

async function fillRow(row, subject, isDeleted, globals) {
  const [latest, schema, ...values] = row.querySelectorAll("td");
  try {
    const version = pathOf("subjects", subject, "versions", "latest") + (isDeleted ? "?deleted=true" : "");
    const [found, own] = await Promise.all([read(version), settingsOf(subject, globals)]);
    latest.replaceChildren(`${found.version} `, idLink(found.id));
    schema.replaceChildren(element("code", {}, typeText(schemaOf(found.schema))));
    own.forEach(({ value, isOwn }, at) => values[at].replaceChildren(element("span", { class: isOwn ? "own" : "faint" }, value)));
  } catch (fault) {
    for (const cell of values) cell.replaceChildren();
    schema.replaceChildren();
    latest.replaceChildren(element("span", { class: "wrong" }, `${fault.code} ${fault.message}`));
  }
}

function deletedSwitch(parameters) {
  const box = element("input", { type: "checkbox", id: "deleted", checked: choices.deleted });
  box.addEventListener("change", () => {
    choices.deleted = box.checked;
    views.replace(parameters());
    views.show();
  });
  return element("label", { class: "switch", for: "deleted" }, box, "Include soft-deleted");
}

async function subjectsView(parameters) {
  const [live, all, globals] = await Promise.all([
    read("/subjects"), choices.deleted ? read("/subjects?deleted=true") : null, globalSettings(),
  ]);
  const isLive = new Set(live);
  const subjects = all ?? live;
  const summary = element("p", { class: "faint told", role: "status" });
  const body = element("tbody");
  const rest = element("p", { class: "faint" });
  const search = element("input", { type: "search", id: "search", placeholder: "Search", "aria-label": "Search subjects",
    autocomplete: "off", spellcheck: "false" });
  const filler = fillerInView();
  const rows = new Map();
  let found = [];

  function rowOf(subject) {
    if (!rows.has(subject)) {
      const row = subjectRow(subject, !isLive.has(subject));
      rows.set(subject, row);
      filler.watch(row, () => fillRow(row, subject, !isLive.has(subject), globals));
    }
    return rows.get(subject);
  }

  function addRows() {
    body.append(...found.slice(body.rows.length, body.rows.length + ROWS_AT_ONCE).map(rowOf));
    const below = found.length - body.rows.length;
    rest.textContent = below ? `${below.toLocaleString("en")} more below` : "";
    // if the last row is still in view, the observer reports it again
    end.unobserve(rest);
    end.observe(rest);
  }

  function draw() {
    const wanted = search.value.toLowerCase();
    found = subjects.filter((subject) => subject.toLowerCase().includes(wanted));
    body.replaceChildren();
    addRows();
    summary.textContent = found.length === subjects.length ? count(found.length, "subject")
      : found.length ? `${found.length.toLocaleString("en")} of ${count(subjects.length, "subject")}`
      : `No subject has “${search.value}” in its name.`;
  }

  const end = new IntersectionObserver((entries) => entries.at(-1).isIntersecting && rest.textContent && addRows(), { rootMargin: "400px" });
  search.value = parameters.search ?? "";
  const shown = () => (search.value ? { search: search.value } : {});
  let timer;
  function keepInAddress() {
    clearTimeout(timer);
    if (search.isConnected) views.replace(shown());
  }
  search.addEventListener("input", () => {
    // browsers limit how often the address may change
    clearTimeout(timer);
    timer = setTimeout(keepInAddress, 300);
    draw();
  });
  search.addEventListener("change", keepInAddress);
  draw();
  const forms = SETTINGS.map((setting, at) => settingForm(setting, { value: globals[at], isOwn: true }));
  const none = element("p", { class: "empty" }, "There are no subjects yet. ", element("a", { href: "#new=" }, "Register the first schema"), ".");
  return [
    element("h1", { tabindex: -1 }, "Subjects"),
    element("div", { class: "bar" }, search, deletedSwitch(shown), element("div", { class: "settings" }, forms)),
    subjects.length ? summary : none,
    subjects.length > 0 && element("table", { class: "subjects" },
      element("thead", {}, element("tr", {}, COLUMNS.map((name) => element("th", { scope: "col" }, name)))),
      body),
    rest,
  ];
}

// ---- A subject ----

/** Deletes after a confirmation. Then shows the subject again, or the list of subjects if the subject no longer exists. */
async function remove(path, { what, consequence, isPermanent, isLast }) {
  const question = isPermanent ? `Delete ${what} permanently?` : `Soft-delete ${what}?`;
  if (!(await askToConfirm(question, consequence, isPermanent ? "Delete permanently" : "Soft-delete"))) return;
  try {
    const sent = await writes.write("DELETE", path + (isPermanent ? "?permanent=true" : ""));
    await (isPermanent && isLast ? views.go({}) : views.show());
    views.showMessage(message("good", isPermanent ? `Deleted ${what} permanently.` : `Soft-deleted ${what}.`, sentText(sent)));
  } catch (fault) {
    views.showMessage(faultMessage(fault));
  }
}

function deleteVersionButton(subject, version, isLive, isLast) {
  const consequence = isLive
    ? "Later schemas are no longer compared with it. Its schema can still be read by its id."
    : "This can't be undone.";
  return button(isLive ? "Soft-delete version…" : "Delete version permanently…", {
    id: "delete-version",
    onclick: () => remove(pathOf("subjects", subject, "versions", String(version)),
      { what: `version ${version} of ${subject}`, consequence, isPermanent: !isLive, isLast }),
  });
}

function deleteSubjectButton(subject, live, all) {
  const consequence = live.length
    ? `This soft-deletes ${count(live.length, "version")}, and removes the subject's own compatibility level. Schemas can still be read by their ids.`
    : `This deletes ${count(all.length, "version")} permanently, and the subject's own mode. It can't be undone.`;
  return button(live.length ? "Soft-delete subject…" : "Delete subject permanently…", {
    id: "delete-subject",
    onclick: () => remove(pathOf("subjects", subject), { what: subject, consequence, isPermanent: live.length === 0, isLast: true }),
  });
}

/** The section for one version: the links to its views, and the chosen view. */
async function versionPart(subject, version, { versions, live, all }, { view, against }) {
  const readVersion = (number) => read(pathOf("subjects", subject, "versions", String(number)) + "?deleted=true");
  const others = versions.filter((other) => other !== version);
  const other = others.includes(Number(against)) ? Number(against) : others.findLast((each) => each < version) ?? others[0];
  const [found, old] = await Promise.all([readVersion(version), view === "compare" && other ? readVersion(other) : null]);
  const link = (name, parameters, isShown) =>
    element("a", { href: address({ subject, version, ...parameters }), "aria-current": isShown && "true" }, name);
  const compared = element("select", { id: "against", "aria-label": "Compare with version" },
    others.map((each) => element("option", { value: each, selected: each === other }, `version ${each}`)));
  compared.addEventListener("change", () => views.go({ subject, version, view: "compare", against: compared.value }));
  return element("section", { class: "version" },
    element("div", { class: "bar" },
      element("h2", {}, `Version ${found.version} `, idLink(found.id),
        !live.includes(version) && [" ", element("span", { class: "tag" }, "soft-deleted")]),
      element("nav", { class: "tabs", "aria-label": "Views of this version" },
        link("Fields", {}, !view), link("JSON", { view: "json" }, view === "json"),
        others.length > 0 && link("Compare", { view: "compare", against: other }, view === "compare")),
      old && compared,
      deleteVersionButton(subject, version, live.includes(version), all.length === 1)),
    old ? differenceView(other, old.schema, version, found.schema) : view === "json" ? jsonView(found.schema) : fieldsView(found.schema));
}

async function subjectView(parameters) {
  const { subject } = parameters;
  const path = pathOf("subjects", subject, "versions");
  const [all, live, globals] = await Promise.all([read(path + "?deleted=true"), readOr([], path), globalSettings()]);
  const own = await settingsOf(subject, globals);
  const versions = choices.deleted || live.length === 0 ? all : live;
  const version = all.includes(Number(parameters.version)) ? Number(parameters.version) : versions.at(-1);
  const item = (number) => element("li", {}, element("a", {
    href: address({ subject, version: number }), "aria-current": number === version && "true", class: !live.includes(number) && "deleted",
  }, String(number)));
  return [
    element("h1", { tabindex: -1 }, subject, live.length === 0 && [" ", element("span", { class: "tag" }, "soft-deleted")]),
    element("div", { class: "bar" },
      own.map((each) => settingForm(each.setting, each, subject)),
      all.length > live.length && live.length > 0 && deletedSwitch(() => parameters),
      deleteSubjectButton(subject, live, all)),
    element("nav", { class: "versions", "aria-label": "Versions" }, element("span", { class: "faint" }, count(versions.length, "version")),
      element("ol", {}, versions.toReversed().map(item))),
    await versionPart(subject, version, { versions, live, all }, parameters),
    element("section", {}, element("h2", {}, "New version"), newSchemaForm(subject)),
  ];
}

function newSubjectView() {
  return [element("h1", { tabindex: -1 }, "New subject"), newSchemaForm()];
}

// ---- A schema by its id ----

/** The maximum number of versions in the list of an id. */
const MAX_USES = 500;

function idLink(id) {
  return element("a", { class: "id", href: address({ id }), "aria-label": `Schema with id ${id}` }, `id ${id}`);
}

/** The versions that have an id, each with a link. */
async function usesOf(id) {
  const path = pathOf("schemas", "ids", id, "versions");
  const [all, live] = await Promise.all([read(path + "?deleted=true"), read(path)]);
  const name = ({ subject, version }) => JSON.stringify([subject, version]);
  const isLive = new Set(live.map(name));
  const item = (use) => element("li", { class: !isLive.has(name(use)) && "deleted" },
    element("a", { href: address(use) }, `${use.subject}, version ${use.version}`),
    !isLive.has(name(use)) && [" ", element("span", { class: "tag" }, "soft-deleted")]);
  return [
    element("h2", {}, `Used by ${count(all.length, "version")}`),
    element("ul", { class: "uses" }, all.slice(0, MAX_USES).map(item)),
    all.length > MAX_USES && element("p", { class: "faint" }, `${(all.length - MAX_USES).toLocaleString("en")} more`),
  ];
}

async function schemaOfId(id, view) {
  try {
    const [{ schema }, uses] = await Promise.all([read(pathOf("schemas", "ids", id)), usesOf(id)]);
    const link = (name, parameters, isShown) =>
      element("a", { href: address({ id, ...parameters }), "aria-current": isShown && "true" }, name);
    return [
      element("section", { class: "version" },
        element("div", { class: "bar" }, element("h2", {}, `Schema with id ${id}`),
          element("nav", { class: "tabs", "aria-label": "Views of this schema" },
            link("Fields", {}, view !== "json"), link("JSON", { view: "json" }, view === "json"))),
        view === "json" ? jsonView(schema) : fieldsView(schema)),
      element("section", {}, uses),
    ];
  } catch (fault) {
    return [faultMessage(fault)];
  }
}

async function idView({ id, view }) {
  const number = element("input", { id: "schema-id", required: true, inputmode: "numeric", pattern: "[0-9]+", title: "Digits only",
    autocomplete: "off", value: id });
  const form = element("form", { class: "look-up" },
    element("label", { for: "schema-id" }, "Id"), number, button("Look up", { type: "submit", class: "main" }));
  form.addEventListener("submit", (event) => {
    event.preventDefault();
    views.go({ id: number.value });
  });
  return [element("h1", { tabindex: -1 }, "Schema by id"), form, ...(id ? await schemaOfId(id, view) : [])];
}

// ---- The page ----

/** Shows the view that the address names after its `#`. So each view has a link. */
const views = (() => {
  const main = document.querySelector("main");
  let latest = 0;
  let title = "";

  function viewOf(parameters) {
    if ("subject" in parameters) return subjectView(parameters);
    if ("id" in parameters) return idView(parameters);
    return "new" in parameters ? newSubjectView() : subjectsView(parameters);
  }

  function titleOf(parameters) {
    if ("subject" in parameters) return parameters.subject;
    if ("id" in parameters) return parameters.id ? `Schema ${parameters.id}` : "Schema by id";
    return "new" in parameters ? "New subject" : "Subjects";
  }

  /** The new element for the one that had the focus before the view was redrawn. */
  function replacementOf(focused) {
    if (focused?.id) return document.getElementById(focused.id);
    const href = focused?.getAttribute("href");
    return href && [...main.querySelectorAll("a")].find((link) => link.getAttribute("href") === href);
  }

  async function show() {
    const turn = ++latest;
    const { deleted, ...parameters } = Object.fromEntries(new URLSearchParams(location.hash.slice(1)));
    choices.deleted = deleted === "true";
    main.setAttribute("aria-busy", "true");
    let content;
    try {
      content = await viewOf(parameters);
    } catch (fault) {
      content = [element("h1", { tabindex: -1 }, titleOf(parameters)), faultMessage(fault), button("Try again", { onclick: show })];
    }
    if (turn !== latest) return;
    const focused = main.contains(document.activeElement) ? document.activeElement : null;
    const [heading, ...rest] = content.filter(Boolean);
    main.replaceChildren(heading, ...writesWithoutResponse(), ...rest);
    main.removeAttribute("aria-busy");
    const before = title;
    title = titleOf(parameters);
    document.title = `${title} – avroreg`;
    if (before === title) replacementOf(focused)?.focus({ preventScroll: true });
    else if (before) main.querySelector("h1").focus();
  }

  /** Changes the address to that of another view, without a new entry in the browser's history. */
  function replace(parameters) {
    history.replaceState(null, "", address(parameters));
  }

  /** Shows another view, as its link would. */
  function go(parameters) {
    history.pushState(null, "", address(parameters));
    return show();
  }

  /** Shows a message below the heading, and moves the focus to it. */
  function showMessage(text) {
    main.querySelector(".said")?.remove();
    text.classList.add("said");
    main.querySelector("h1").after(text);
    text.focus();
  }

  return { show, go, replace, showMessage };
})();

window.addEventListener("hashchange", views.show);
views.show();
