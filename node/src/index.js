// From a module with JSX to page bytes, and through the program `jsx-precompile` to JavaScript.

export { findParser } from "./babel.js";
export { build, findProgram, RefusedError } from "./build.js";
export { PageError, toPage } from "./page.js";
