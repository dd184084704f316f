// Unpacks and compiles the modules in a worker, while the page unpacks its scripts.
onmessage = async ({ data: { modules, sizes: [first, second] } }) => {
  try {
    const both = unzipped(modules, first + second), parts = [both.subarray(0, first), both.subarray(first)];
    const [program, live] = await Promise.all(parts.map(it => WebAssembly.compile(it)));
    postMessage({ modules: { program, live } });
  } catch (error) {
    postMessage({ why: error.message });
  }
};
