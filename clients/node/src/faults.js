// The faults of a compile and of a conversion, each said once: `means`, `at` and `example` are those of the tables in docs/PROTOCOL.md.

/**
 * @typedef {object} FaultRow
 * @property {number} code
 * @property {string} means what is wrong
 * @property {string} at where it stands
 * @property {string} example a sheet `a.scss` (`in.scss` for `convert`), and what is answered; '' where there is none
 * @property {string} says the head of an explanation; `{it}` is what stands at the place
 * @property {string} help what a person can do
 */

/** @type {readonly FaultRow[]} */
export const FAULTS = Object.freeze([
  {
    code: 10,
    means: "the sheet can't go on: the first token with which no sheet can begin, or what isn't closed",
    at: 'that token; the end of the text where it only stops early; an unclosed string or `#{` at its first character; a URL whose default namespace is no name and that has no `as`; of a sheet in lines also what its lines refuse',
    example: '`a { b: }` → `error 10 a.scss 1:8 1:9`',
    says: "{it} can't stand here",
    help: 'look at what stands directly before the place: something isn\'t closed there, or a `;` is missing',
  },
  {
    code: 11,
    means: 'an unknown variable',
    at: 'it',
    example: '`a { b: $x; }` → `error 11 a.scss 1:8 1:10`',
    says: 'unknown variable {it}',
    help: 'declare it above, or name the module that has it, as in `colors.$brand`',
  },
  {
    code: 12,
    means: 'an unknown namespace',
    at: 'it',
    example: '`a { b: m.$x; }` → `error 12 a.scss 1:8 1:9`',
    says: 'unknown namespace {it}',
    help: 'load the module with `@use` at the top of the sheet; its namespace is the last part of its URL, or what `as` says',
  },
  {
    code: 13,
    means: 'an unknown member of a module, or an unknown mixin',
    at: 'its name, with the namespace before it',
    example: '`@use "lib"; a { b: lib.$zz; }` → `error 13 a.scss 1:20 1:27`',
    says: 'unknown member {it}',
    help: 'members of other modules are named with their namespace, as in `@include lib.box`; what they have stands in their sheets and `@forward`s',
  },
  {
    code: 14,
    means: "arguments that don't fit a call's parameters, or a value outside those that a call takes",
    at: 'the operation or the call',
    example: '`a { b: if(true); }` → `error 14 a.scss 1:8 1:16`',
    says: "the arguments don't fit in {it}",
    help: "compare the call with the parameters: too many, missing, unknown or doubled ones, or a value that isn't taken",
  },
  {
    code: 15,
    means: 'a value of a wrong kind for its operator or its call',
    at: 'the operation or the call',
    example: '`a { b: c * 2; }` → `error 15 a.scss 1:8 1:13`',
    says: 'a value of the wrong kind in {it}',
    help: 'look at what the values are with `@debug meta.inspect($value)`',
  },
  {
    code: 16,
    means: "numbers whose units don't fit",
    at: 'the operation or the call',
    example: '`a { b: 1px + 1s; }` → `error 16 a.scss 1:8 1:16`',
    says: "units that don't fit in {it}",
    help: 'only units of one kind are added and compared, as `px` and `in`, or `s` and `ms`; for others write `calc()`',
  },
  {
    code: 17,
    means: 'a quotient or remainder by zero',
    at: 'the operation or the call',
    example: '`a { b: 1 % 0; }` → `error 17 a.scss 1:8 1:13`',
    says: 'a division by zero in {it}',
    help: 'ask with `@if` whether the divisor is 0',
  },
  {
    code: 18,
    means: 'a number beyond the greatest magnitude',
    at: 'the operation, the call or the literal',
    example: '`a { b: 1e28; }` → `error 18 a.scss 1:8 1:12`',
    says: 'a number that is too large in {it}',
    help: 'numbers go up to 10^27',
  },
  {
    code: 19,
    means: 'an entry or a URL that means no file (also an entry that isn\'t a path, or ends in none of `.scss`, `.sass`, `.css`)',
    at: '1:1 of the entry; the URL',
    example: '`@use "nowhere";` → `error 19 a.scss 1:6 1:15`',
    says: 'no file is meant by {it}',
    help: 'the URL is looked for from the folder of its sheet, then from each load path, with `_` in front and without it, and with `.scss`, `.sass` and `.css`',
  },
  {
    code: 20,
    means: 'a URL that means several files',
    at: 'the URL',
    example: '`@use "lib";` beside `lib.scss` and `_lib.scss` → `error 20 a.scss 1:6 1:11`',
    says: 'several files are meant by {it}',
    help: 'keep one of the files, or write the URL with its extension',
  },
  {
    code: 21,
    means: 'a module that is being loaded',
    at: 'the URL',
    example: '`a.scss` loads `b.scss`, which loads `a.scss` → `error 21 b.scss 1:6 1:9`',
    says: '{it} is being loaded already: the sheets load each other in a circle',
    help: 'move what both need to a third sheet that both load',
  },
  {
    code: 22,
    means: 'a configuration for a module that is loaded already',
    at: 'the URL',
    example: '`@use "lib"; @use "lib" as l with ($a: 2);` → `error 22 a.scss 1:18 1:23`',
    says: "{it} is loaded already, and can't be configured any more",
    help: 'give the `with` where the module is loaded first',
  },
  {
    code: 23,
    means: "a configured name that the module doesn't take, or an assignment to a built-in variable",
    at: 'the name; the statement',
    example: '`@use "lib" with ($a: 2);` where `lib.scss` is `$a: 1;` → `error 23 a.scss 1:18 1:20`',
    says: "{it} can't be set",
    help: 'a module takes what it declares with `!default` at its top level; variables of built-in modules stay as they are',
  },
  {
    code: 24,
    means: 'a namespace of an earlier `@use` of this sheet, also of the same module; a member that two forwards, or two modules that are used `as *`, bring from different origins',
    at: 'the second URL; the name',
    example: '`@use "lib"; @use "x/lib";` → `error 24 a.scss 1:18 1:25`',
    says: '{it} means two things',
    help: 'give one of them another namespace with `as`, or hide the member in one `@forward`',
  },
  {
    code: 25,
    means: 'an `@error` of the sheet',
    at: 'the statement',
    example: '`@error "no";` → `error 25 a.scss 1:1 1:12`',
    says: '{it}',
    help: 'the sheet itself says so, by `@error`',
  },
  {
    code: 26,
    means: 'a `&` without a parent',
    at: 'the selector',
    example: '`& { b: c; }` → `error 26 a.scss 1:1 1:2`',
    says: '{it} has no parent',
    help: '`&` stands for the rule around it: write it inside of one',
  },
  {
    code: 27,
    means: "a text that is no list of selectors, or can't be nested in the rule around it",
    at: 'the selector',
    example: '`a > { b: c; }` → `error 27 a.scss 1:1 1:4`',
    says: '{it} is no selector that may stand here',
    help: 'look for a `{` or a `;` that is missing before it, and for a combinator at its end',
  },
  {
    code: 28,
    means: "a value that isn't CSS",
    at: 'the expression',
    example: '`a { b: (c: d); }` → `error 28 a.scss 1:8 1:14`',
    says: "{it} isn't a value of CSS",
    help: 'a map, for one, can\'t be written: take a value out of it with `map.get`',
  },
  {
    code: 29,
    means: "nested media queries that can't be joined",
    at: 'the inner queries',
    example: '`@media a { @media not b { c { d: e; } } }` → `error 29 a.scss 1:19 1:24`',
    says: "the media queries {it} can't be joined with those around them",
    help: 'write the rule outside of the other `@media`',
  },
  {
    code: 30,
    means: 'an `@extend`',
    at: 'the statement',
    example: '`a { @extend .b; }` → `error 30 a.scss 1:5 1:15`',
    says: '`@extend` isn\'t supported',
    help: 'write what is shared as a `@mixin` and `@include` it, or give the element both classes',
  },
  {
    code: 31,
    means: 'an `@import` of a Sass file',
    at: 'the statement',
    example: '`@import "a", "b.css";` → `error 31 a.scss 1:1 1:21`',
    says: '`@import` of a sheet isn\'t supported',
    help: 'load the sheet with `@use`, and write its members with the namespace: `@use "colors"; a { color: colors.$brand; }`',
  },
  {
    code: 32,
    means: 'more than 128 blocks and brackets, 64 loads or 1,000 levels of evaluation',
    at: 'the token; the URL; the expression or statement',
    example: 'a chain of 65 files → `error 32 f63.scss 1:6 1:11`',
    says: 'too deeply nested at {it}',
    help: '128 blocks and brackets, 64 loads and 1,000 levels of evaluation may be open',
  },
  {
    code: 33,
    means: 'more than 1,000,000 turns of loops and calls, or questions, in one body',
    at: 'the statement or the call; what asks',
    example: '`$i: 0; @while true { $i: $i + 1; }` → `error 33 a.scss 1:8 1:19`',
    says: 'too many turns at {it}',
    help: "one sheet may take 1,000,000 turns of loops and calls: look for a loop that doesn't end",
  },
  {
    code: 34,
    means: "a value, a list of selectors or queries, or a body's output that is too large",
    at: 'the expression, selector, queries or statement',
    example: '',
    says: '{it} is too large',
    help: 'a value may weigh 1,048,576, and one sheet may write 16 MiB of CSS',
  },
  {
    code: 35,
    means: 'a key that stands twice in a map',
    at: 'the second key',
    example: '`$m: (a: b, a: c);` → `error 35 a.scss 1:12 1:13`',
    says: 'the key {it} stands twice in the map',
    help: 'keep one of the two',
  },
  {
    code: 36,
    means: "an index that isn't a place of the list or text",
    at: 'the operation or the call',
    example: '`a { b: nth(c, 2); }` → `error 36 a.scss 1:8 1:17`',
    says: 'there is no such place in {it}',
    help: 'places count from 1, and up to `list.length`',
  },
  {
    code: 37,
    means: 'a private member behind a namespace',
    at: 'its name, with the namespace before it',
    example: '`@use "lib"; a { b: lib.$-p; }` → `error 37 a.scss 1:20 1:27`',
    says: '{it} is private',
    help: 'names that begin with `-` or `_` are seen in their own sheet alone: give it another name there',
  },
  {
    code: 38,
    means: 'a load behind another statement',
    at: 'the statement',
    example: '`a { b: c; } @use "lib";` → `error 38 a.scss 1:13 1:23`',
    says: '{it} must stand before all else',
    help: 'move it to the top of the sheet, above every rule',
  },
  {
    code: 39,
    means: 'a function that ends without `@return`',
    at: 'the call',
    example: '`@function f() { $x: 1; } a { b: f(); }` → `error 39 a.scss 1:33 1:36`',
    says: '{it} came to no `@return`',
    help: 'end the function with a `@return` on every way through it',
  },
  {
    code: 40,
    means: 'a statement where it may not stand',
    at: 'the statement',
    example: '`a { @use "b"; }` → `error 40 a.scss 1:5 1:13`',
    says: '{it} may not stand here',
    help: 'loads, functions and mixins stand at the top level, declarations in rules, and `@return` in functions',
  },
  {
    code: 41,
    means: 'a built-in member that is left out by name',
    at: 'the call or the variable',
    example: '`@use "sass:math"; a { b: math.$epsilon; }` → `error 41 a.scss 1:26 1:39`',
    says: '{it} is left out',
    help: "this built-in member isn't there; which ones are stands in docs/LANGUAGE.md",
  },
  {
    code: 42,
    means: "a statement that a sheet in lines can't hold, where `convert` writes one",
    at: 'the statement',
    example: '`a { }` → `error 42 in.scss 1:1 1:2`',
    says: "a sheet in lines can't hold {it}",
    help: 'change it, or leave the sheet in SCSS: sheets of both syntaxes load each other',
  },
]);

/**
 * The row of a code.
 * @param {number} code
 * @returns {FaultRow | null} null where no fault has this code
 */
export function faultOf(code) {
  return FAULTS.find((it) => it.code === code) ?? null;
}

/**
 * What a code means, with an example and what can be done, in a few lines.
 * @param {number} code
 * @returns {string | null} null where no fault has this code
 */
export function meaningOf(code) {
  const row = faultOf(code);
  if (!row) return null;
  const lines = [`fault ${code}: ${row.means}`, `  stands at: ${row.at}`];
  if (row.example) lines.push(`  example:   ${row.example}`);
  return [...lines, `  what to do: ${row.help}`, ''].join('\n');
}
