// What a script of the profile does, told by node and by nothing of this repository: node's own parser
// (acorn) reads the script, the tree is written anew with a call for each step, operation and member, and
// node runs that. Control flow, closures, fresh cells of loops and `try` are node's own; operators, members,
// conversions, promises and their messages are written here a second time.
//
//   node --expose-internals bench/oracle.mjs FILE..      prints for each script its log lines, its end, its steps
//   node --expose-internals bench/oracle.mjs --list      reads scripts from standard input, parted by lines `----`
//
// The end is `end`, `throw NAME: MESSAGE`, `throw VALUE`, or `limit` behind 1,000,000 steps.
import { readFileSync } from "node:fs";
import { createRequire } from "node:module";
import vm from "node:vm";

const acorn = createRequire(import.meta.url)("internal/deps/acorn/acorn/dist/acorn");
const MOST = 1000000;
const SAFE = Number.MAX_SAFE_INTEGER;

// ---- Values: undefined, null, booleans, safe integers, strings, objects, arrays, functions, Errors, promises.

class Fault {
  constructor(name, message) {
    this.name = name;
    this.message = message;
  }
}
class Limit {}
class Space {
  constructor(members, call, build, type = "function") {
    Object.assign(this, { members, call, build, type });
  }
}
class Settling {
  constructor() {
    this.state = "pending";
    this.value = undefined;
    this.reactions = [];
  }
}

const kinds = ["Error", "TypeError", "RangeError", "ReferenceError", "SyntaxError"];
const type = (message) => {
  throw new Fault("TypeError", message);
};
const range = (message) => {
  throw new Fault("RangeError", message);
};
const isPlain = (v) => typeof v === "object" && v !== null && Object.getPrototypeOf(v) === null;
const isFunction = (v) => typeof v === "function" || (v instanceof Space && v.call !== undefined);

function text(v) {
  switch (typeof v) {
    case "string": return v;
    case "number": case "boolean": case "undefined": return String(v);
    default: return v === null ? "null" : type("not convertible");
  }
}

function spelled(s) {
  if (s === "") return 0;
  if (!/^-?[0-9]+$/.test(s)) range("not a safe integer");
  const n = BigInt(s);
  if (n > BigInt(SAFE) || n < -BigInt(SAFE)) range("not a safe integer");
  return Number(n);
}

function number(v) {
  switch (typeof v) {
    case "number": return v;
    case "boolean": return v ? 1 : 0;
    case "string": return spelled(v);
    case "undefined": return range("not a safe integer");
    default: return v === null ? 0 : type("not convertible");
  }
}

const safe = (exact) =>
  exact > BigInt(SAFE) || exact < -BigInt(SAFE) ? range("not a safe integer") : Number(exact);

const arithmetic = {
  "+": (a, b) => safe(a + b),
  "-": (a, b) => safe(a - b),
  "*": (a, b) => safe(a * b),
  "/": (a, b) => {
    if (b === 0n) range("division by zero");
    if (a % b !== 0n) range("not a safe integer");
    return safe(a / b);
  },
  "%": (a, b) => (b === 0n ? range("division by zero") : safe(a % b)),
};

function compared(op, a, b) {
  const [x, y] = typeof a === "string" && typeof b === "string" ? [a, b] : [number(a), number(b)];
  return op === "<" ? x < y : op === "<=" ? x <= y : op === ">" ? x > y : x >= y;
}

function binary(op, a, b) {
  if (op === "===") return a === b;
  if (op === "!==") return a !== b;
  if (op[0] === "<" || op[0] === ">") return compared(op, a, b);
  if (op === "+" && (typeof a === "string" || typeof b === "string")) {
    const left = text(a);
    return left + text(b);
  }
  const left = BigInt(number(a));
  return arithmetic[op](left, BigInt(number(b)));
}

function kind(v) {
  if (v instanceof Space) return v.type;
  return v === null ? "object" : typeof v;
}

// ---- Members.

const refused = new Set(["__proto__", "constructor", "hasOwnProperty", "isPrototypeOf", "propertyIsEnumerable",
  "toLocaleString", "toString", "valueOf", "__defineGetter__", "__defineSetter__", "__lookupGetter__",
  "__lookupSetter__", "then"]);
const index = (key) => (/^(0|[1-9][0-9]*)$/.test(key) && Number(key) < 4294967295 ? Number(key) : undefined);
const aText = (v) => (typeof v === "string" ? v : type("bad argument"));
const aNumber = (v, otherwise) => (v === undefined ? otherwise : typeof v === "number" ? v : type("bad argument"));
const thisText = (v) => (typeof v === "string" ? v : type("bad argument"));
const thisArray = (v) => (Array.isArray(v) ? v : type("bad argument"));

// Built-in members: the object is `self`, the arguments are `args`.
const ofText = {
  charCodeAt: (self, args) => {
    const at = aNumber(args[0], 0);
    return at < 0 || at >= thisText(self).length ? range("not a safe integer") : self.charCodeAt(at);
  },
  indexOf: (self, args) => thisText(self).indexOf(aText(args[0])),
  includes: (self, args) => thisText(self).includes(aText(args[0])),
  startsWith: (self, args) => thisText(self).startsWith(aText(args[0])),
  endsWith: (self, args) => thisText(self).endsWith(aText(args[0])),
  slice: (self, args) => thisText(self).slice(aNumber(args[0], 0), aNumber(args[1], undefined)),
  split: (self, args) => thisText(self).split(aText(args[0])),
  trim: (self) => thisText(self).trim(),
};
const each = (self, args, take) => {
  const items = thisArray(self);
  if (!isFunction(args[0])) type("bad argument");
  const length = items.length;
  for (let i = 0; i < length; i++) if (i < items.length) take(call(args[0], undefined, [items[i], i]), items[i]);
};
const ofArray = {
  push: (self, args) => thisArray(self).push(...args),
  pop: (self) => thisArray(self).pop(),
  slice: (self, args) => thisArray(self).slice(aNumber(args[0], 0), aNumber(args[1], undefined)),
  concat: (self, args) => thisArray(self).concat(...args),
  indexOf: (self, args) => thisArray(self).indexOf(args[0]),
  includes: (self, args) => thisArray(self).indexOf(args[0]) >= 0,
  join: (self, args) => {
    const between = args[0] === undefined ? "," : aText(args[0]);
    return thisArray(self).map((v) => (v === undefined || v === null ? "" : text(v))).join(between);
  },
  map: (self, args) => {
    const made = [];
    each(self, args, (v) => made.push(v));
    return made;
  },
  filter: (self, args) => {
    const made = [];
    each(self, args, (v, item) => { if (v !== undefined && v !== null && v !== false && v !== 0 && v !== "") made.push(item); });
    return made;
  },
  forEach: (self, args) => {
    each(self, args, () => {});
    return undefined;
  },
};
const textMembers = new Map(Object.entries(ofText).map(([k, f]) => [k, native((self, args) => f(self, args))]));
const arrayMembers = new Map(Object.entries(ofArray).map(([k, f]) => [k, native((self, args) => f(self, args))]));
const promiseMembers = new Map([
  ["then", native((self, args) => reacted(aPromise(self), args[0], args[1]))],
  ["catch", native((self, args) => reacted(aPromise(self), undefined, args[0]))],
]);
function native(body) {
  return new Space(new Map(), body);
}
const aPromise = (v) => (v instanceof Settling ? v : type("bad argument"));

function read(object, at) {
  if (typeof object === "string") {
    const key = text(at);
    if (key === "length") return object.length;
    const i = index(key);
    if (i !== undefined) return i < object.length ? object[i] : undefined;
    return textMembers.get(key) ?? type("bad property");
  }
  if (Array.isArray(object)) {
    const key = text(at);
    if (key === "length") return object.length;
    const i = index(key);
    if (i !== undefined) return i < object.length ? object[i] : undefined;
    return arrayMembers.get(key) ?? type("bad property");
  }
  if (isPlain(object)) {
    const key = text(at);
    if (refused.has(key)) type(`refused name ${key}`);
    return object[key];
  }
  if (object instanceof Fault) {
    const key = text(at);
    return key === "name" ? object.name : key === "message" ? object.message : type("bad property");
  }
  if (object instanceof Settling) return promiseMembers.get(text(at)) ?? type("bad property");
  if (object instanceof Space && object.members.size > 0) return object.members.get(text(at)) ?? type("bad property");
  return type("bad property");
}

function write(object, at, value) {
  if (Array.isArray(object)) {
    const i = index(text(at));
    if (i === undefined) type("bad property");
    if (i > object.length) range("array gap");
    object[i] = value;
  } else if (isPlain(object)) {
    define(object, text(at), value);
  } else {
    type("bad property");
  }
  return value;
}

function define(object, key, value) {
  if (refused.has(key)) type(`refused name ${key}`);
  object[key] = value;
  return object;
}

// ---- Calls.

function call(f, self, args) {
  if (typeof f === "function") return f.apply(self, args);
  if (f instanceof Space && f.call !== undefined) return f.call(self, args);
  return type("not a function");
}
function build(f, args) {
  if (f instanceof Space && f.build !== undefined) return f.build(args);
  return type("not a function");
}

// ---- Promises and jobs.

let jobs = [];
function settle(promise, state, value) {
  if (promise.state !== "pending") return;
  promise.state = state;
  promise.value = value;
  for (const reaction of promise.reactions) jobs.push(() => reaction(state, value));
  promise.reactions = [];
}
function react(promise, reaction) {
  if (promise.state === "pending") promise.reactions.push(reaction);
  else {
    const { state, value } = promise;
    jobs.push(() => reaction(state, value));
  }
}
function resolver() {
  const promise = new Settling();
  let done = false;
  const reject = (reason) => {
    if (!done) { done = true; settle(promise, "rejected", reason); }
  };
  const resolve = (value) => {
    if (done) return;
    done = true;
    if (value === promise) settle(promise, "rejected", new Fault("TypeError", "bad argument"));
    else if (value instanceof Settling) jobs.push(() => react(value, (state, v) => settle(promise, state, v)));
    else settle(promise, "fulfilled", value);
  };
  return { promise, resolve, reject };
}
function wrapped(value) {
  if (value instanceof Settling) return value;
  const promise = new Settling();
  settle(promise, "fulfilled", value);
  return promise;
}
function attempt(made, work) {
  let value;
  try {
    value = work();
  } catch (thrown) {
    if (thrown instanceof Limit) throw thrown;
    made.reject(thrown);
    return;
  }
  made.resolve(value);
}
function reacted(promise, fulfilled, rejected) {
  const made = resolver();
  react(promise, (state, value) => {
    const f = state === "fulfilled" ? fulfilled : rejected;
    if (isFunction(f)) attempt(made, () => call(f, undefined, [value]));
    else settle(made.promise, state, value);
  });
  return made.promise;
}
function all(items) {
  if (!Array.isArray(items)) type("bad argument");
  const made = resolver();
  const values = items.map(() => undefined);
  let left = items.length;
  if (left === 0) settle(made.promise, "fulfilled", values);
  items.forEach((item, i) => react(wrapped(item), (state, value) => {
    if (state === "rejected") { settle(made.promise, "rejected", value); return; }
    values[i] = value;
    left -= 1;
    if (left === 0) settle(made.promise, "fulfilled", values);
  }));
  return made.promise;
}
// An async function is a generator that gives what it waits for.
function started(generator) {
  const made = resolver();
  const go = (way, value) => {
    let next;
    try {
      next = generator[way](value);
    } catch (thrown) {
      if (thrown instanceof Limit) throw thrown;
      made.reject(thrown);
      return;
    }
    if (next.done) made.resolve(next.value);
    else react(wrapped(next.value), (state, v) => go(state === "fulfilled" ? "next" : "throw", v));
  };
  go("next", undefined);
  return made.promise;
}

// ---- Built-ins.

// JSON.parse: the grammar of the whole text first, then numbers and keys in the order of the text.
function parsed(source) {
  const bad = () => { throw new Fault("SyntaxError", "bad JSON"); };
  let at = 0;
  const blank = () => { while (/[ \t\n\r]/.test(source[at] ?? "")) at += 1; };
  const take = (pattern) => {
    pattern.lastIndex = at;
    const found = pattern.exec(source);
    if (found === null) return bad();
    at = pattern.lastIndex;
    return found[0];
  };
  const expect = (c) => (source[at] === c ? (at += 1) : bad());
  const quotation = () => JSON.parse(take(/"(?:[^"\\\u0000-\u001f]|\\(?:["\\/bfnrt]|u[0-9a-fA-F]{4}))*"/y));
  const list = (end, level, item) => {
    if (level === 64) bad();
    const made = [];
    at += 1;
    blank();
    if (source[at] === end) { at += 1; return made; }
    for (;;) {
      made.push(item());
      blank();
      if (source[at] === end) { at += 1; return made; }
      expect(",");
    }
  };
  const value = (level) => {
    blank();
    switch (source[at]) {
      case "{": return { pairs: list("}", level, () => {
        blank();
        const key = quotation();
        blank();
        expect(":");
        return [key, value(level + 1)];
      }) };
      case "[": return { items: list("]", level, () => value(level + 1)) };
      case '"': return { plain: quotation() };
      case "t": case "f": case "n": return { plain: JSON.parse(take(/true|false|null/y)) };
      default: return { raw: take(/-?(?:0|[1-9][0-9]*)(?:\.[0-9]+)?(?:[eE][+-]?[0-9]+)?/y) };
    }
  };
  const tree = value(0);
  blank();
  return at === source.length ? valued(tree) : bad();
}
function valued(tree) {
  if (tree.pairs !== undefined) {
    const object = Object.create(null);
    for (const [key, item] of tree.pairs) {
      if (refused.has(key)) type(`refused name ${key}`);
      object[key] = valued(item);
    }
    return object;
  }
  if (tree.items !== undefined) return tree.items.map(valued);
  return tree.raw === undefined ? tree.plain : exactly(tree.raw);
}
// The safe integer that a JSON number is, in whatever way it is written.
function exactly(raw) {
  const [, sign, whole, fraction = "", exponent = "0"] = /^(-?)([0-9]+)(?:\.([0-9]+))?(?:[eE]([+-]?[0-9]+))?$/.exec(raw);
  let digits = (whole + fraction).replace(/^0+(?=.)/, "");
  let places = Number(exponent) - fraction.length;
  if (/^0*$/.test(digits)) return 0;
  while (places < 0 && digits.endsWith("0")) { digits = digits.slice(0, -1); places += 1; }
  if (places < 0 || places > 20) range("not a safe integer");
  return spelled(sign + digits + "0".repeat(places));
}

function quoted(s) {
  return JSON.stringify(s);
}
function firstThrow(v, open) {
  if (v instanceof Settling) type("not convertible");
  if (Array.isArray(v) || isPlain(v)) {
    if (open.includes(v)) type("bad argument");
    for (const item of Array.isArray(v) ? v : Object.values(v)) firstThrow(item, [...open, v]);
  }
}
function written(v) {
  if (v === undefined || isFunction(v) || v instanceof Space) return undefined;
  if (v === null || typeof v === "boolean" || typeof v === "number") return String(v);
  if (typeof v === "string") return quoted(v);
  if (Array.isArray(v)) return `[${v.map((item) => written(item) ?? "null").join(",")}]`;
  if (v instanceof Fault) return "{}";
  const parts = [];
  for (const key of Object.keys(v)) {
    const item = written(v[key]);
    if (item !== undefined) parts.push(`${quoted(key)}:${item}`);
  }
  return `{${parts.join(",")}}`;
}

let lines = [];
const anObject = (v) => (isPlain(v) ? v : type("bad argument"));
const builtIn = (entries) => new Map(Object.entries(entries));
const globals = builtIn({
  console: new Space(builtIn({
    log: native((_, args) => {
      lines.push(args.map(text).join(" ").replace(/[\r\n]/g, " "));
    }),
  }), undefined, undefined, "object"),
  JSON: new Space(builtIn({
    parse: native((_, args) => parsed(aText(args[0]))),
    stringify: native((_, args) => {
      firstThrow(args[0], []);
      return written(args[0]);
    }),
  }), undefined, undefined, "object"),
  Object: new Space(builtIn({
    keys: native((_, args) => Object.keys(anObject(args[0]))),
    values: native((_, args) => Object.values(anObject(args[0]))),
    entries: native((_, args) => Object.entries(anObject(args[0]))),
  }), undefined, undefined, "function"),
  Array: new Space(builtIn({ isArray: native((_, args) => Array.isArray(args[0])) }), undefined, undefined, "function"),
  Promise: new Space(builtIn({
    resolve: native((_, args) => wrapped(args[0])),
    all: native((_, args) => all(args[0])),
  }), undefined, (args) => {
    if (!isFunction(args[0])) type("bad argument");
    const made = resolver();
    try {
      call(args[0], undefined, [native((_, a) => made.resolve(a[0])), native((_, a) => made.reject(a[0]))]);
    } catch (thrown) {
      if (thrown instanceof Limit) throw thrown;
      made.reject(thrown);
    }
    return made.promise;
  }),
  String: native((_, args) => (args.length === 0 ? "undefined" : text(args[0]))),
  Number: native((_, args) => number(args[0])),
  ...Object.fromEntries(kinds.map((name) => [name, new Space(new Map(), undefined, (args) =>
    new Fault(name, args[0] === undefined ? "" : aText(args[0])))])),
});

// ---- The script written anew. Each statement and expression node is entered by `$s()`.

const mangled = (name) => `_${name}`;

class Writer {
  // The names that are declared around a place, as a list of sets.
  constructor() {
    this.scopes = [];
    this.temporaries = [];
  }
  isDeclared(name) {
    return this.scopes.some((scope) => scope.has(name));
  }
  within(names, write) {
    this.scopes.push(new Set(names));
    const made = write();
    this.scopes.pop();
    return made;
  }
  name(node) {
    const { name } = node;
    if (!this.isDeclared(name)) return `$global(${JSON.stringify(name)})`;
    return `$read(() => ${mangled(name)}, ${JSON.stringify(name)})`;
  }
  put(name, value) {
    if (!this.isDeclared(name)) return `$unknown(${value}, ${JSON.stringify(name)})`;
    return `$put(${value}, ($v) => { ${mangled(name)} = $v; }, ${JSON.stringify(name)})`;
  }
  list(nodes) {
    return `[${nodes.map((n) => this.expression(n)).join(", ")}]`;
  }
  expression(node) {
    return `($s(), ${this.inside(node)})`;
  }
  inside(node) {
    switch (node.type) {
      case "Literal": return JSON.stringify(node.value);
      case "Identifier": return this.name(node);
      case "ThisExpression": return "this";
      case "TemplateLiteral": return this.template(node);
      case "ArrayExpression": return this.list(node.elements);
      case "ObjectExpression": return this.object(node);
      case "FunctionExpression": case "ArrowFunctionExpression": return this.func(node);
      case "UnaryExpression": return this.unary(node);
      case "BinaryExpression":
        return `$binary(${JSON.stringify(node.operator)}, ${this.expression(node.left)}, ${this.expression(node.right)})`;
      case "LogicalExpression": return this.logical(node);
      case "ConditionalExpression":
        return `($truth(${this.expression(node.test)}) ? ${this.expression(node.consequent)} : ${this.expression(node.alternate)})`;
      case "AssignmentExpression": return this.assignment(node);
      case "UpdateExpression": return this.update(node);
      case "MemberExpression": return `$get(${this.expression(node.object)}, ${this.key(node)})`;
      case "CallExpression": return this.call(node);
      case "NewExpression": return `$new(${this.className(node.callee)}, ${this.list(node.arguments)})`;
      case "AwaitExpression": return `(yield ${this.expression(node.argument)})`;
      case "ParenthesizedExpression": return this.inside(node.expression);
      default: throw new Error(`oracle: ${node.type} is not of the profile`);
    }
  }
  className(node) {
    return this.name(node);
  }
  key(node) {
    return node.computed ? this.expression(node.property) : JSON.stringify(node.property.name);
  }
  template(node) {
    let made = JSON.stringify(node.quasis[0].value.cooked);
    node.expressions.forEach((e, i) => {
      made += ` + $text(${this.expression(e)}) + ${JSON.stringify(node.quasis[i + 1].value.cooked)}`;
    });
    return `(${made})`;
  }
  // A variable of the function that is being written, for a value that is used twice.
  temporary() {
    const { temporaries } = this;
    temporaries.push(`$${temporaries.length}`);
    return temporaries[temporaries.length - 1];
  }
  // The body of a function, or the script, behind the variables that it uses.
  body(write) {
    const outer = this.temporaries;
    this.temporaries = [];
    const made = write();
    const variables = this.temporaries.length > 0 ? `let ${this.temporaries.join(", ")}; ` : "";
    this.temporaries = outer;
    return variables + made;
  }
  object(node) {
    const made = this.temporary();
    const parts = node.properties.map((p) => {
      const key = p.key.type === "Identifier" ? p.key.name : String(p.key.value);
      return `$define(${made}, ${JSON.stringify(key)}, ${this.expression(p.value)})`;
    });
    return `$made(${[`${made} = $object()`, ...parts].join(", ")})`;
  }
  unary(node) {
    if (node.operator === "typeof" && node.argument.type === "Identifier" && !this.isDeclared(node.argument.name)) {
      return `($s(), $kindOfGlobal(${JSON.stringify(node.argument.name)}))`;
    }
    const names = { "!": "$not", "-": "$negate", typeof: "$kind" };
    return `${names[node.operator]}(${this.expression(node.argument)})`;
  }
  logical(node) {
    return `(${this.expression(node.left)} ${node.operator} ${this.expression(node.right)})`;
  }
  assignment(node) {
    const { left, right, operator } = node;
    if (left.type === "Identifier") {
      if (operator === "=") return this.put(left.name, this.expression(right));
      const sum = `$binary(${JSON.stringify(operator[0])}, ($s(), ${this.name(left)}), ${this.expression(right)})`;
      return this.put(left.name, sum);
    }
    const object = this.expression(left.object);
    const key = this.key(left);
    if (operator === "=") return `($s(), $set(${object}, ${key}, ${this.expression(right)}))`;
    const [at, name, old] = [this.temporary(), this.temporary(), this.temporary()];
    return `($s(), ${at} = ${object}, ${name} = ${key}, ${old} = $get(${at}, ${name}), ` +
      `$set(${at}, ${name}, $binary(${JSON.stringify(operator[0])}, ${old}, ${this.expression(right)})))`;
  }
  update(node) {
    const op = node.operator[0];
    const target = node.argument;
    if (target.type === "Identifier") {
      const old = `($s(), ${this.name(target)})`;
      const put = `($v) => ${this.put(target.name, "$v")}`;
      return `$step(${old}, ${JSON.stringify(op)}, ${node.prefix}, ${put})`;
    }
    return `($s(), $stepAt(${this.expression(target.object)}, ${this.key(target)}, ${JSON.stringify(op)}, ${node.prefix}))`;
  }
  call(node) {
    const { callee } = node;
    if (callee.type === "MemberExpression") {
      return `($s(), $method(...$at(${this.expression(callee.object)}, ${this.key(callee)}), ${this.list(node.arguments)}))`;
    }
    return `$call(${this.expression(callee)}, undefined, ${this.list(node.arguments)})`;
  }
  parameters(node) {
    return node.params.map((p) => mangled(p.name)).join(", ");
  }
  func(node) {
    const isArrow = node.type === "ArrowFunctionExpression";
    const own = node.id && node.type === "FunctionExpression" ? [node.id.name] : [];
    return this.within(own, () => this.within([...node.params.map((p) => p.name), ...this.declared(node.body)], () => {
      const params = this.parameters(node);
      const body = `{ ${this.body(() => (node.body.type === "BlockStatement"
        ? node.body.body.map((n) => this.statement(n)).join("\n")
        : `return ${this.expression(node.body)};`))} }`;
      const name = own.length > 0 ? mangled(own[0]) : "";
      if (!node.async) return isArrow ? `((${params}) => ${body})` : `(function ${name}(${params}) ${body})`;
      // `this` of an async function is handed to its generator.
      const begun = `$started((function* () ${body}).call(this))`;
      return isArrow ? `((${params}) => ${begun})` : `(function ${name}(${params}) { return ${begun}; })`;
    }));
  }
  declared(node) {
    const names = [];
    for (const n of node.body ?? []) {
      if (n.type === "VariableDeclaration") names.push(...n.declarations.map((d) => d.id.name));
      if (n.type === "FunctionDeclaration") names.push(n.id.name);
    }
    return names;
  }
  declaration(node) {
    const parts = node.declarations.map((d) => mangled(d.id.name) + (d.init ? ` = ${this.expression(d.init)}` : ""));
    return `${node.kind} ${parts.join(", ")}`;
  }
  block(node) {
    return this.within(this.declared(node), () => `{ ${node.body.map((n) => this.statement(n)).join("\n")} }`);
  }
  statement(node) {
    switch (node.type) {
      case "EmptyStatement": return "$s();";
      case "BlockStatement": return `{ $s(); ${this.block(node)} }`;
      case "ExpressionStatement": return `$s(); ${this.expression(node.expression)};`;
      case "VariableDeclaration": return `$s(); ${this.declaration(node)};`;
      case "FunctionDeclaration":
        return `$s(); ${this.hoisted(node)}`;
      case "IfStatement":
        return `$s(); if ($truth(${this.expression(node.test)})) { ${this.statement(node.consequent)} }` +
          (node.alternate ? ` else { ${this.statement(node.alternate)} }` : "");
      case "WhileStatement":
        return `$s(); while ($truth(${this.expression(node.test)})) { ${this.statement(node.body)} }`;
      case "ForStatement": return this.loop(node);
      case "ForOfStatement": return this.loopOf(node);
      case "BreakStatement": return "$s(); break;";
      case "ContinueStatement": return "$s(); continue;";
      case "ReturnStatement":
        return `$s(); return ${node.argument ? this.expression(node.argument) : ""};`;
      case "ThrowStatement": return `$s(); throw ${this.expression(node.argument)};`;
      case "TryStatement": return this.tried(node);
      case "ExportDefaultDeclaration": return `${this.expression(node.declaration)};`;
      default: throw new Error(`oracle: ${node.type} is not of the profile`);
    }
  }
  hoisted(node) {
    return `function ${mangled(node.id.name)}(${this.parameters(node)}) ` + this.within(
      [...node.params.map((p) => p.name), ...this.declared(node.body)], () => {
        const body = `{ ${this.body(() => node.body.body.map((n) => this.statement(n)).join("\n"))} }`;
        return node.async ? `{ return $started((function* () ${body}).call(this)); }` : body;
      });
  }
  loop(node) {
    const isDeclaration = node.init?.type === "VariableDeclaration";
    const names = isDeclaration ? node.init.declarations.map((d) => d.id.name) : [];
    return this.within(names, () => {
      const init = !node.init ? "" : isDeclaration
        ? `${node.init.kind} ${node.init.declarations.map((d, i) =>
          `${mangled(d.id.name)} = ${i === 0 ? "($s(), " : "("}${d.init ? this.expression(d.init) : "undefined"})`).join(", ")}`
        : this.expression(node.init);
      const test = node.test ? `$truth(${this.expression(node.test)})` : "";
      const update = node.update ? this.expression(node.update) : "";
      return `$s(); for (${init}; ${test}; ${update}) { ${this.statement(node.body)} }`;
    });
  }
  loopOf(node) {
    const name = node.left.declarations[0].id.name;
    // The array is evaluated where the name is declared and not initialised.
    return this.within([name], () =>
      `$s(); for (${node.left.kind} ${mangled(name)} of $items(${this.expression(node.right)})) { ${this.statement(node.body)} }`);
  }
  tried(node) {
    let made = `$s(); try { $s(); ${this.block(node.block)} }`;
    if (node.handler) {
      const { param, body } = node.handler;
      const name = param ? mangled(param.name) : "$e";
      const inside = this.within(param ? [param.name, ...this.declared(body)] : [], () =>
        param ? body.body.map((n) => this.statement(n)).join("\n") : this.block(body));
      made += ` catch (${param ? name : "$e"}) { $pass(${name}); $s(); ${inside} }`;
    }
    if (node.finalizer) made += ` finally { $s(); ${this.block(node.finalizer)} }`;
    return made;
  }
}

// ---- Running.

let count = { made: 0 };
const limit = new Limit();

const runtime = {
  $s: () => {
    if (count.made === MOST) throw limit;
    count.made += 1;
  },
  $pass: (thrown) => {
    if (thrown instanceof Limit) throw thrown;
  },
  $global: (name) => {
    if (name === "undefined") return undefined;
    if (globals.has(name)) return globals.get(name);
    throw new Fault("ReferenceError", `${name} is not defined`);
  },
  $kindOfGlobal: (name) => (globals.has(name) ? kind(globals.get(name)) : "undefined"),
  $read: (get, name) => {
    try {
      return get();
    } catch {
      throw new Fault("ReferenceError", `${name} is not initialized`);
    }
  },
  $put: (value, put, name) => {
    try {
      put(value);
    } catch (e) {
      if (e instanceof TypeError || e.name === "TypeError") throw new Fault("TypeError", `assignment to constant ${name}`);
      throw new Fault("ReferenceError", `${name} is not initialized`);
    }
    return value;
  },
  $unknown: (value, name) => {
    if (name === "undefined" || globals.has(name)) throw new Fault("TypeError", `assignment to constant ${name}`);
    throw new Fault("ReferenceError", `${name} is not defined`);
  },
  $binary: binary,
  $text: text,
  $truth: (v) => v !== undefined && v !== null && v !== false && v !== 0 && v !== "",
  $not: (v) => !runtime.$truth(v),
  $negate: (v) => safe(-BigInt(number(v))),
  $kind: kind,
  $get: read,
  $set: write,
  $object: () => Object.create(null),
  $define: define,
  $made: (object) => object,
  $step: (old, op, prefix, put) => {
    const before = number(old);
    const after = binary(op, before, 1);
    put(after);
    return prefix ? after : before;
  },
  $stepAt: (object, key, op, prefix) => {
    const before = number(read(object, key));
    const after = binary(op, before, 1);
    write(object, key, after);
    return prefix ? after : before;
  },
  $at: (object, key) => [read(object, key), object],
  $method: (f, self, args) => call(f, self, args),
  $call: call,
  $new: build,
  $items: function* (items) {
    if (!Array.isArray(items)) type("not an array");
    for (let i = 0; i < items.length; i++) yield items[i];
  },
  $started: started,
};

function told(thrown) {
  if (thrown instanceof Fault) return `throw ${thrown.name}: ${thrown.message}`;
  return `throw ${thrown === null || typeof thrown !== "object" ? String(thrown) : kind(thrown)}`;
}

// What a script does: its log lines, its end and its steps. Jobs run until none is left.
export function run(source) {
  const tree = acorn.parse(source, { ecmaVersion: "latest", sourceType: "module" });
  const writer = new Writer();
  const code = writer.body(() =>
    writer.within(writer.declared(tree), () => tree.body.map((n) => writer.statement(n)).join("\n")));
  count = { made: 0 };
  lines = [];
  jobs = [];
  let end = "end";
  try {
    vm.runInThisContext(`(function (${Object.keys(runtime).join(", ")}) { "use strict"; ${code}\n})`)
      .apply(undefined, Object.values(runtime));
  } catch (thrown) {
    if (thrown instanceof RangeError && /call stack/.test(thrown.message)) end = "deep";
    else if (thrown instanceof Limit) end = "limit";
    else if (thrown instanceof Error) throw thrown;
    else end = told(thrown);
  }
  if (end === "end") {
    try {
      while (jobs.length > 0) {
        runtime.$s();
        jobs.shift()();
      }
    } catch (thrown) {
      if (!(thrown instanceof Limit)) throw thrown;
      end = "limit";
    }
  }
  return { lines, end, steps: count.made };
}

function print(source) {
  const { lines: logged, end, steps } = run(source);
  for (const line of logged) console.log(`log ${line}`);
  console.log(end);
  console.log(`steps ${steps}`);
}

const words = process.argv.slice(2);
if (words[0] === "--list") {
  readFileSync(0, "utf8").split(/^----\n/m).forEach((source, i) => {
    if (i > 0) console.log("----");
    print(source);
  });
} else {
  for (const file of words) print(readFileSync(file, "utf8"));
}
