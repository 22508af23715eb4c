# One Worker behind one socket. Start it with
#   workerd serve examples/hello/config.capnp
# and ask it with
#   curl -H 'User-Agent:' -H 'Accept:' http://localhost:8080/

using Workerd = import "/workerd/workerd.capnp";

const config :Workerd.Config = (
  services = [ (name = "main", worker = .hello) ],

  # At every address of the machine, port 8080, the Worker `main` answers.
  sockets = [ (name = "http", address = "*:8080", http = (), service = "main") ],
);

const hello :Workerd.Worker = (
  # The path is looked for beside this file.
  modules = [ (name = "worker", esModule = embed "worker.js") ],
  compatibilityDate = "2024-01-01",
);
