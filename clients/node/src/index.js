// What the package gives to other programs.

export { build } from './build.js';
export { Compiler } from './compiler.js';
export { convert } from './convert.js';
export { explain, problemsOf } from './explain.js';
export { FAULTS, faultOf } from './faults.js';
export { ProgramError, findProgram } from './program.js';
export { readReply } from './reply.js';
export { EditRefused, RequestError, Session, SessionEnded } from './session.js';
export { watch } from './watch.js';
