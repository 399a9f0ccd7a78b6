"""The entry points tools/try, tools/bench and tools/check: `tools/try NAME` calls the function try_NAME of a module in tries/.

Its parameters are the tool's words: those with a default may be left out, and those by keyword alone are options. An annotation, or the
type of the default, says how a word is read. `room` is no word, but an empty folder that is removed at the end."""
import argparse, ast, importlib, inspect, sys
from pathlib import Path

from office_tools.office import Wrong, temporary_folder

HERE = Path(__file__).parent
MODULES = {"try": "tries/*.py", "bench": "benches.py", "check": "checks/*.py"}

def tools(kind):
    """Returns {name: (the path of its module, its documentation)} of the tools of a kind, such as `try`."""
    paths = sorted(HERE.glob(MODULES[kind]))
    functions = ((path, it) for path in paths for it in ast.parse(path.read_text(encoding="utf-8")).body if isinstance(it, ast.FunctionDef))
    return {it.name.removeprefix(kind + "_").replace("_", "-"): (path, ast.get_docstring(it)) for path, it in functions
            if it.name.startswith(kind + "_")}

def call(tool, prog, documentation, words=None):
    """Calls a function with words, and returns the status: 1 if a condition isn't met, or it returns or yields faults."""
    parser = argparse.ArgumentParser(prog=prog, description=documentation, formatter_class=argparse.RawDescriptionHelpFormatter)
    signature = inspect.signature(tool)
    for word in (it for it in signature.parameters.values() if it.name != "room"):
        default = None if word.default is word.empty else word.default
        kind = word.annotation if word.annotation is not word.empty else str if default is None else type(default)
        shown = f"default {default}" if default else None
        if word.kind is word.KEYWORD_ONLY:
            how = {bool: {"action": "store_true"}, list: {"action": "append", "default": []}}.get(kind, {"type": kind, "default": default})
            parser.add_argument(f"--{word.name}", help=shown, **how)
        else:
            count = "*" if word.kind is word.VAR_POSITIONAL else "?" if word.default is not word.empty else None
            parser.add_argument(word.name, type=kind, nargs=count, default=default, metavar=word.name.upper(), help=shown)
    bound = signature.bind_partial()
    bound.arguments.update(vars(parser.parse_args(words)))
    try:
        with temporary_folder() as room:
            bound.arguments.update({"room": room} if "room" in signature.parameters else {})
            found = tool(*bound.args, **bound.kwargs) or 0
            found = list(found) if inspect.isgenerator(found) else found
    except Wrong as wrong:
        print(f"{prog}: {wrong}", file=sys.stderr)
        return 1
    if isinstance(found, list):
        print(*found, sep="\n", end="\n" * bool(found))
    return int(bool(found))

def run(kind, name, words):
    path, documentation = tools(kind)[name]
    module = importlib.import_module(".".join(path.relative_to(HERE.parent).with_suffix("").parts))
    return call(getattr(module, f"{kind}_{name.replace('-', '_')}"), f"tools/{kind} {name}", documentation, words)

def main(documentation, gate=()):
    """Runs what the words name. Without words it runs the gate's part, if there is one; else it lists the names."""
    kind, (name, *words) = Path(sys.argv[0]).name, sys.argv[1:] or ["--gate" if gate else "--help"]
    if name == "--gate":
        failed = [f"tools/{kind} {name}: this failed" for name in gate if run(kind, name, [])]
        print(*failed, sep="\n", end="\n" * bool(failed), file=sys.stderr)
        return int(bool(failed))
    if name in (found := tools(kind)):
        return run(kind, name, words)
    print(documentation.strip() + "\n")
    for name, (_, text) in sorted(found.items()):
        print(f"  {name:{max(map(len, found))}}  {text.splitlines()[0]}")
    return 0 if sys.argv[1:] in ([], ["-h"], ["--help"]) else 2
