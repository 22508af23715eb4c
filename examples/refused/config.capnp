# Scripts that are refused, and how that is told. Each constant is a configuration of its own:
#   workerd check examples/refused/config.capnp unfinished
# Scripts may stand in the configuration itself, as these do.

using Workerd = import "/workerd/workerd.capnp";

# The script ends too early: `Syntax` at its length.
const unfinished :Workerd.Config = (
  services = [ (name = "main", worker = (
    modules = [ (name = "worker", esModule = "export default {") ],
  )) ],
);

# A word that is left out is told by its name, at its place.
const left :Workerd.Config = (
  services = [ (name = "main", worker = (
    modules = [ (name = "worker", esModule = "class A {}") ],
  )) ],
);

# The place of a name that is declared twice is that of the second one.
const twice :Workerd.Config = (
  services = [ (name = "main", worker = (
    modules = [ (name = "worker", esModule = "let a; let a;") ],
  )) ],
);

# The first script that is refused is told, in the order of the services.
const second :Workerd.Config = (
  services = [
    (name = "first", worker = (modules = [ (name = "worker", esModule = embed "../hello/worker.js") ])),
    (name = "second", worker = (serviceWorkerScript = "return 1;")),
    (name = "third", worker = (serviceWorkerScript = "class A {}")),
  ],
);
