"""The scripts of the repository as modules, also those without an ending."""
import importlib.machinery, importlib.util, pathlib, sys

sys.dont_write_bytecode = True
root = pathlib.Path(__file__).resolve().parent.parent.parent
for folder in ("tools", "bench"):
    if str(root / folder) not in sys.path:
        sys.path.insert(0, str(root / folder))


def script(path):
    """The script with this path, loaded as a module; its `main` does not run."""
    name = "script_" + path.replace("/", "_")
    loader = importlib.machinery.SourceFileLoader(name, str(root / path))
    module = importlib.util.module_from_spec(importlib.util.spec_from_loader(name, loader))
    loader.exec_module(module)
    return module
