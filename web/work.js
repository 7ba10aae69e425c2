// The worker of the page: it has the module, and runs one command after the other. Each run has a new memory.
"use strict";
let module;

// The module, of its size and its packed bytes in letters.
function unpacked(packed) {
  const [size, letters] = packed.split(":");
  return expanded(Uint8Array.from(atob(letters), letter => letter.charCodeAt(0)), Number(size));
}

function answer({ id, words, files }) {
  const text = new TextEncoder(), letters = new TextDecoder(), held = {}, back = {};
  for (const name in files) held[name] = text.encode(files[name]);
  const run = runModule(module, ["afx", ...words], held);
  for (const name in run.files) {
    const now = letters.decode(run.files[name]);
    if (now !== files[name]) back[name] = now;
  }
  return { ...run, id, files: back };
}

onmessage = async event => {
  const asked = event.data;
  if (asked.module) {
    module = asked.module;
    postMessage({ ready: true });
  } else if (asked.packed) {
    try {
      const bytes = unpacked(asked.packed);
      module = await WebAssembly.compile(bytes);
      postMessage({ ready: true, module, bytes: bytes.byteLength });
    } catch (error) {
      postMessage({ failed: String(error) });
    }
  } else {
    postMessage(answer(asked));
  }
};
