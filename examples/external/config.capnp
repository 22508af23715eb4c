# Services that are other servers. The port of an address is 80 where none is written.

using Workerd = import "/workerd/workerd.capnp";

const config :Workerd.Config = (
  services = [
    (name = "main", worker = (
      modules = [ (name = "main", esModule = embed "../hello/worker.js") ],
      globalOutbound = "upstream",
    )),
    (name = "upstream", external = (address = "upstream.example.com:8080", http = (style = host))),

    # The address alone may stand there.
    (name = "other", external = "other.example.com"),
  ],
  sockets = [ (name = "http", address = "localhost:8080", service = "main") ],
);
