// What a development server, such as Vite's, makes of its option `proxy`, over the library that these use: Debian's node-http-proxy 1.18.
//
//     NODE_PATH=/usr/share/nodejs node proxy.mjs PORT 'PATH: OPTIONS, ..'
import http from "node:http";
import { createRequire } from "node:module";

const { createProxyServer } = createRequire(import.meta.url)("http-proxy");

const [port, text] = process.argv.slice(2);
const shown = new Function(`return { ${text} }`)();
const rules = Object.entries(shown).map(([path, options]) => ({ path, ws: options.ws, proxy: createProxyServer(options) }));
const ruleOf = ({ url }) => rules.find(({ path }) => url.startsWith(path));

const server = http.createServer((request, reply) => {
  const rule = ruleOf(request);
  rule ? rule.proxy.web(request, reply) : reply.setHeader("Content-Type", "text/html").end(); // a page of the server's own
});
server.on("upgrade", (request, socket, head) => {
  const rule = ruleOf(request);
  rule?.ws ? rule.proxy.ws(request, socket, head) : socket.destroy();
});
server.listen(Number(port), "127.0.0.1");
