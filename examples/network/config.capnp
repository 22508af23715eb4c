# A Worker whose `fetch` reaches a part of the network alone. Where no service is called `internet`,
# there is one that allows the public addresses and denies none.

using Workerd = import "/workerd/workerd.capnp";

const config :Workerd.Config = (
  services = [
    (name = "main", worker = (
      modules = [ (name = "main", esModule = embed "../hello/worker.js") ],
      globalOutbound = "inside",
    )),

    # An address is reached where a range of `allow` holds it and none of `deny` does.
    (name = "inside", network = (
      allow = ["private", "192.0.2.0/24"],
      deny = ["local", "10.1.0.0/16"],
    )),

    # Without fields: `public`, and nothing denied.
    (name = "outside", network = ()),
  ],
  sockets = [ (name = "http", address = "*:8080", service = "main") ],
);
