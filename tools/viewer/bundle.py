"""Puts modules of a page into one script, for a page that is opened from a file, where browsers
load no modules.

Each module becomes a function that is called at once and gives what the module exports. That takes
modules of different names, whose imports and exports stand in the forms that this project writes,
with paths that begin with `./` or `../`:

    import { a, b as c } from "./name.js";     import * as name from "./name.js";
    export const ..    export function ..    export class ..    export async function ..
    export { a, b } from "./name.js";
"""
import re
from pathlib import Path
from typing import Dict, List

_FROM = r'from "(\.[./\w]*?)(\w+)(\.m?js)";\n'
_IMPORT = re.compile(rf"^import (\{{[^}}]*\}}|\* as \w+) {_FROM}", re.M)
_PASSED_ON = re.compile(rf"^export \{{([^}}]*)\}} {_FROM}", re.M)
_SEVERAL = r"const \w+ = [^;\n({[]*, \w+ ="
_EXPORT = re.compile(rf"^export (?!{_SEVERAL})(?=(?:async )?(?:const|function|class) (\w+))", re.M)
_LEFT = re.compile(r"^(?:import|export)\b", re.M)


class CantBundle(Exception):
    """A module that has another form, or the name of another one."""


def in_order(module: Path) -> List[Path]:
    """The module, after all that it stands on."""
    order: List[Path] = []
    _visit(module.resolve(), order)
    return order


def _visit(module: Path, order: List[Path]) -> None:
    if module in order:
        return
    text = module.read_text(encoding="utf-8")
    for form in (_IMPORT, _PASSED_ON):
        for _, folder, name, ending in form.findall(text):
            _visit((module.parent / f"{folder}{name}{ending}").resolve(), order)
    order.append(module)


def _taken(found: "re.Match[str]") -> str:
    """An import as a constant that is taken from another module's."""
    names = found[1].replace("* as ", "").replace(" as ", ": ")
    return f"const {names} = {found[3]}Module;\n"


def _names(listed: str) -> List[str]:
    return [name.strip() for name in listed.split(",") if name.strip()]


def wrapped(name: str, text: str) -> str:
    """A module as a constant that has what it exports."""
    exported = _EXPORT.findall(text)
    for listed, _, other, _ in _PASSED_ON.findall(text):
        exported += [f"{each}: {other}Module.{each}" for each in _names(listed)]
    text = _EXPORT.sub("", _PASSED_ON.sub("", text))
    text = _IMPORT.sub(_taken, text)
    if _LEFT.search(text):
        raise CantBundle(f"{name} has an import or export of another form")
    return f"const {name}Module = (() => {{\n{text}return {{ {', '.join(exported)} }};\n}})();\n"


def bundled(module: Path) -> str:
    """The script of a module and of all that it stands on."""
    parts: Dict[str, str] = {}
    for each in in_order(module):
        if each.stem in parts:
            raise CantBundle(f"two modules have the name {each.stem}")
        parts[each.stem] = wrapped(each.stem, each.read_text(encoding="utf-8"))
    return '"use strict";\n' + "".join(parts.values())
