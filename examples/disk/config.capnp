# Folders as services, and a socket at one of them.

using Workerd = import "/workerd/workerd.capnp";

const config :Workerd.Config = (
  services = [
    (name = "site", disk = (path = "site")),
    (name = "uploads", disk = (path = "/var/uploads", writable = true, allowDotfiles = true)),

    # The path alone may stand there.
    (name = "docs", disk = "docs"),
  ],
  sockets = [ (name = "http", address = "*:8080", service = "site") ],
);
