// The hello reply by node's http module. The port is the first argument.
import { createServer } from "node:http";

createServer((request, response) => {
  response.writeHead(200, {
    "content-type": "text/plain;charset=UTF-8",
    "content-length": "12",
  });
  response.end("Hello World\n");
}).listen(Number(process.argv[2]), "127.0.0.1");
