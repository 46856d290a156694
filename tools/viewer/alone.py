"""The page that needs no server: one file with the window, its worker and the engine as a
WebAssembly module, and with a model where one is given. It opens from a file, and asks for nothing;
from a server, for the model that its address names there, `?model=NAME`.

The page is the window's (page/index.html), with styles and scripts in it, and with the card that
asks for a file (alone_page/welcome.html). The module and the model stand in it packed by zlib, in
base64; alone_page/model.js tells the model's form, in which its stream is packed by `pack`. The
words of faults are those of docs/commands.
"""
import base64
import json
import re
import zlib
from pathlib import Path
from typing import Dict, List, Optional, Sequence

from dressing.materials import Picture

from . import kept, manual
from .bundle import bundled
from .model import Model

HERE = Path(__file__).resolve().parent
PAGE, ALONE_PAGE = HERE / "page", HERE / "alone_page"
STYLES = (PAGE / "style.css", PAGE / "bar.css", ALONE_PAGE / "welcome.css")
# Only what stands in the page runs. So the browser itself refuses requests but to the page's own
# server, and a file has none.
POLICY = (
    "default-src 'none'", "script-src 'unsafe-inline' 'wasm-unsafe-eval' blob:", "worker-src blob:",
    "style-src 'unsafe-inline'", "img-src data: blob:", "connect-src 'self'",
)  # fmt: skip
LINKS = """<link rel="stylesheet" href="style.css">
<link rel="stylesheet" href="bar.css">
<script type="module" src="main.js"></script>
"""
_CODE = re.compile(r"`([^`]*)`")
_LAST_FAULT = 56


def fault_words() -> Dict[int, List[str]]:
    """By the fault of a text or a file: what its line or the file has, and what to do."""
    found: Dict[int, List[str]] = {}
    for number in range(1, _LAST_FAULT + 1):
        said = manual.cure_of(f"fault {number}", manual.PREPARE)
        if said:
            what, _, cure = said[len("The line "):].partition(": ")
            found[number] = [_CODE.sub(r"\1", what), _CODE.sub(r"\1", cure)]
    return found


def packed(data: bytes) -> str:
    return base64.b64encode(zlib.compress(data, 9)).decode("ascii")


def _script(kind: str, name: str, text: str) -> str:
    """A script of the page; it can't end or begin another one inside."""
    harmless = text.replace("</script", "<\\/script").replace("<!--", "<\\!--")
    return f'<script type="{kind}" id="{name}">{harmless}</script>\n'


def page_of(
    module: bytes, model: Optional[Model] = None, pictures: Sequence[Picture] = ()
) -> str:
    """The page with this module, and with a model, if one is given, whose stream is packed, and the
    pictures of its texture."""
    style = "".join(path.read_text(encoding="utf-8") for path in STYLES)
    policy = ";\n  ".join(POLICY)
    head = f'<meta http-equiv="Content-Security-Policy" content="{policy}">\n'
    scripts = (
        ("text/plain", "engine", packed(module)),
        ("text/plain", "model", packed(kept.packed(model, pictures)) if model else ""),
        ("application/json", "words", json.dumps(fault_words())),
        ("text/plain", "worker", bundled(ALONE_PAGE / "alone_worker.js")),
        ("text/javascript", "page", bundled(ALONE_PAGE / "alone.js")),
    )
    welcome = (ALONE_PAGE / "welcome.html").read_text(encoding="utf-8")
    parts = {
        LINKS: f"{head}<style>\n{style}</style>\n",
        "<title>vdpm</title>": "<title>Mesh viewer</title>",
        "<body>": '<body class="empty">',
        "</body>": welcome + "".join(_script(*script) for script in scripts) + "</body>",
    }
    page = (PAGE / "index.html").read_text(encoding="utf-8")
    for mark, text in parts.items():
        before, found, after = page.partition(mark)
        assert found, f"index.html has no {mark}"
        page = before + text + after
    return page
