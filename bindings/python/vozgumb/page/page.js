// Asks the server what the path selects from the document while one types, and shows the answer. What comes of documents and
// paths is shown as text alone: `append` and `textContent` make no markup of a string.
"use strict";

const DELAY = 120;
const part = (name) => document.getElementById(name);
let asked = 0;
let timer = 0;

/** A mark around nothing yet. */
function mark(kind, title) {
  const element = document.createElement("mark");
  element.className = kind;
  element.title = title;
  return element;
}

/** A text whose character at a place is marked; past its end a blank is. */
function refused(text, place, title) {
  const characters = Array.from(text);
  const element = mark("refused", title);
  const character = characters[place] ?? " ";
  element.append(character === "\n" ? " \n" : character);
  const all = document.createDocumentFragment();
  all.append(characters.slice(0, place).join(""), element, characters.slice(place + 1).join(""));
  return all;
}

/** The nodes in the order in which they begin, each once; of two that begin together the outer one comes first. */
function inOrder(nodes) {
  const once = new Map(nodes.map((node) => [node.location, node]));
  return [...once.values()].sort((one, other) => one.start - other.start || other.end - one.end);
}

/** A text with each node marked, one mark within another where the nodes are so. */
function marked(text, nodes) {
  const characters = Array.from(text);
  const all = document.createDocumentFragment();
  const open = [{ element: all, end: characters.length }];
  let at = 0;
  const copyTo = (place) => {
    open.at(-1).element.append(characters.slice(at, place).join(""));
    at = place;
  };
  const closeTo = (place) => {
    while (open.length > 1 && open.at(-1).end <= place) {
      copyTo(open.at(-1).end);
      open.pop();
    }
    copyTo(place);
  };
  for (const node of inOrder(nodes)) {
    closeTo(node.start);
    const element = mark("node", node.location);
    open.at(-1).element.append(element);
    open.push({ element, end: node.end });
  }
  closeTo(characters.length);
  return all;
}

/** Shows what is wrong with the path, the document or the query. */
function showFault(question, answer) {
  const line = part("refusal");
  line.replaceChildren();
  if (answer.fault === undefined) return;
  if (answer.of === "path") line.append(refused(question.path, answer.place, answer.fault), "\n");
  line.append(answer.fault);
  if (answer.hint) line.append("\n", answer.hint);
}

/** Shows the document, with what is selected or refused marked. */
function showDocument(question, answer) {
  const text = question.document;
  const isRefused = answer.of === "document" && answer.place !== undefined;
  part("selected").replaceChildren(
    isRefused ? refused(text, answer.place, answer.fault) : marked(text, answer.nodes ?? []),
  );
}

/** Shows where the nodes are. */
function showLocations(answer) {
  const nodes = answer.nodes ?? [];
  part("count").textContent = `Locations: ${nodes.length}${answer.more ? ", and more" : ""}`;
  part("locations").replaceChildren(
    ...nodes.map((node) => {
      const line = document.createElement("li");
      line.textContent = node.location;
      return line;
    }),
  );
}

/** The server's answer to a question. */
async function answerTo(question) {
  try {
    const headers = { "Content-Type": "application/json" };
    const response = await fetch("select", { method: "POST", headers, body: JSON.stringify(question) });
    return response.ok ? await response.json() : { fault: response.statusText };
  } catch {
    return { fault: "the server does not answer" };
  }
}

/** Asks, and shows the answer unless a later question was asked meanwhile. */
async function ask() {
  const number = ++asked;
  const question = { path: part("path").value, document: part("document").value };
  const answer = await answerTo(question);
  if (number !== asked) return;
  showFault(question, answer);
  showDocument(question, answer);
  showLocations(answer);
}

/** Asks once nothing is typed for a moment. */
function askSoon() {
  clearTimeout(timer);
  timer = setTimeout(ask, DELAY);
}

/** Takes the document that the server was given, and asks for the first time. */
async function begin() {
  const response = await fetch("document");
  part("document").value = await response.text();
  part("path").addEventListener("input", askSoon);
  part("document").addEventListener("input", askSoon);
  await ask();
}

begin();
