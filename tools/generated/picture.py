"""Writes docs/page.png, a picture of the page that `epaxos draw` makes of examples/slow_path.script, where Chromium is.

Browsers draw it a little differently, so the picture isn't compared: it says of which page it is, by a SHA-256 (a PNG's
tEXt), and is up to date as long as the page is the same. Where there is no Chromium the picture that is there stays.
"""

import base64
import hashlib
import os
import struct
import sys
import tempfile
import zlib

from calls import TOP, written

PICTURE = f"{TOP}/docs/page.png"
SCRIPT = f"{TOP}/examples/slow_path.script"
SIZE = {"width": 1000, "height": 560, "deviceScaleFactor": 1, "mobile": False}
# A PNG's signature and its first chunk, behind which a text may stand.
HEAD = 33

sys.path.insert(0, f"{TOP}/tools")
from loaded import loaded


def page():
    """The page."""
    with open(SCRIPT, "rb") as file:
        return written(["draw"], written(["replay", "--emit", "bundle"], file.read()))


def taken(frames, html):
    """What Chromium shows of a page, as a PNG."""
    with tempfile.TemporaryDirectory(ignore_cleanup_errors=True) as folder:
        with open(f"{folder}/page.html", "wb") as file:
            file.write(html)
        browser = frames.Browser(f"{folder}/own")
        try:
            browser.open(f"{folder}/page.html")
            browser.call("Emulation.setDeviceMetricsOverride", **SIZE)
            browser.value("new Promise(done => requestAnimationFrame(() => requestAnimationFrame(done)))")
            return base64.b64decode(browser.call("Page.captureScreenshot", format="png")["data"])
        finally:
            browser.process.kill()
            browser.process.wait()


def text_of(html):
    """The chunk that says of which page a picture is."""
    body = b"tEXtSource\0SHA-256 of the page: " + hashlib.sha256(html).hexdigest().encode()
    return struct.pack(">I", len(body) - 4) + body + struct.pack(">I", zlib.crc32(body))


def files():
    """The path of the picture, and what the file has to hold."""
    html, held = page(), b""
    if os.path.isfile(PICTURE):
        with open(PICTURE, "rb") as file:
            held = file.read()
    frames = loaded("page_frames", f"{TOP}/tools/bench/page")
    text = text_of(html)
    if held and (held[HEAD:].startswith(text) or not frames.BROWSER):
        yield PICTURE, held
    elif frames.BROWSER:
        made = taken(frames, html)
        yield PICTURE, made[:HEAD] + text + made[HEAD:]
