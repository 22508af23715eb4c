# A Worker in the older form, with an event listener. `check` reads the configuration, and refuses the
# script for now.

using Workerd = import "/workerd/workerd.capnp";

const config :Workerd.Config = (
  services = [ (name = "main", worker = (serviceWorkerScript = embed "worker.js")) ],
  sockets = [ (name = "http", address = "*:8080", service = "main") ],
);
