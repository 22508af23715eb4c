# What a Worker may be given: texts, bytes, JSON values and other services. `check` reads all of it;
# `serve` refuses bindings for now.

using Workerd = import "/workerd/workerd.capnp";

const config :Workerd.Config = (
  services = [
    (name = "front", worker = .front),
    (name = "back", worker = .back),
  ],
  sockets = [ (name = "http", address = "127.0.0.1:8080", service = "front") ],
);

const front :Workerd.Worker = (
  modules = [ (name = "front", esModule = embed "front.js") ],
  bindings = [
    (name = "GREETING", text = "Good morning"),
    (name = "LICENSE", text = embed "license.txt"),
    (name = "KEY", data = 0x"00 ff 10 20"),
    (name = "LIMITS", json = "{\"requests\": 1000, \"hosts\": [\"a\", \"b\"]}"),

    # A service by its name; `(name = "back")` says the same.
    (name = "BACK", service = "back"),
  ],
  # Where the global `fetch` goes. Without this line it goes to the service `internet`.
  globalOutbound = "back",
);

const back :Workerd.Worker = (
  modules = [ (name = "back", esModule = embed "back.js") ],
);
