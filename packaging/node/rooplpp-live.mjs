#!/usr/bin/env node
// Runs the program rooplpp-live, the WebAssembly module rooplpp-live.wasm next to this file, as rooplpp.mjs runs rooplpp.
import { start } from './rooplpp.mjs';

start('rooplpp-live');
