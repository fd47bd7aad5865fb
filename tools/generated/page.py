"""Writes crates/ep_viewer/src/parts.rt, the fixed parts of a page, from crates/ep_viewer/page.html.

`@DATA@` in page.html is where the data stand.
"""

import os

CRATE = f"{os.path.dirname(os.path.dirname(os.path.dirname(os.path.realpath(__file__))))}/crates/ep_viewer"


def literal(text):
    """A literal of bytes."""
    text.encode("ascii")
    return 'b"' + text.replace("\\", "\\\\").replace('"', '\\"') + '"'


def files():
    """The path of the parts, and what the file has to hold."""
    with open(f"{CRATE}/page.html", encoding="ascii") as page:
        head, tail = page.read().split("@DATA@")
    made = f"""//! The fixed parts of a page, as `tools/generate` writes them from page.html.

/// What stands before the data.
pub(crate) const HEAD: &[u8] = {literal(head)};

/// What stands behind the data: the page's script.
pub(crate) const TAIL: &[u8] = {literal(tail)};
"""
    yield f"{CRATE}/src/parts.rt", made.encode()
