#!/usr/bin/env python3
"""Joins the files of the page. A page is the text of `before.rt`, the data, and the text of `after.rt`.

    python3 build.py            writes ../src/before.rt and ../src/after.rt
    python3 build.py --check    compares them with the files here instead; the exit status is 1 if one differs
    python3 build.py OUT        writes before.html and after.html into the folder OUT

The Content-Security-Policy of `page.html` gets the hashes of the style and of the code. A browser then runs no other code
and uses no other style.
"""
import base64
import hashlib
import pathlib
import sys

HERE = pathlib.Path(__file__).parent


def sealed(content):
    """The source expression of a Content-Security-Policy that allows exactly this content."""
    return b"sha256-" + base64.b64encode(hashlib.sha256(content).digest())


def parts():
    """What comes before the data and after it."""
    frame = (HERE / "page.html").read_bytes()
    code = b"".join((HERE / name).read_bytes() for name in (HERE / "order.txt").read_text().split())
    style = (HERE / "page.css").read_bytes()
    for mark, content in ((b"sha256-CODE", sealed(code)), (b"sha256-STYLE", sealed(style)), (b"<!--STYLE-->", style),
                          (b"<!--CODE-->", code)):
        assert frame.count(mark) == 1, mark
        frame = frame.replace(mark, content)
    assert b"</script" not in code and b"<!--" not in code and b"</style" not in style
    before, after = frame.split(b"<!--DATA-->")
    return before, after


def module(name, content):
    """The source of the module with one of the texts."""
    text = content.decode().replace("\\", "\\\\").replace('"', '\\"')
    return (f"//! The part of a page {name} its data. `page/build.py` writes this file.\n\n"
            f"/// The text {name} the data.\npub const {name.upper()}: &str = \"{text}\";\n")


def main():
    texts = dict(zip(("before", "after"), parts()))
    if sys.argv[1:] and sys.argv[1] != "--check":
        out = pathlib.Path(sys.argv[1])
        out.mkdir(parents=True, exist_ok=True)
        for name, content in texts.items():
            (out / f"{name}.html").write_bytes(content)
        return
    for name, content in texts.items():
        source = HERE.parent / "src" / f"{name}.rt"
        if sys.argv[1:]:
            if source.read_text() != module(name, content):
                sys.exit(f"{source} isn't what build.py writes")
        else:
            source.write_text(module(name, content))


if __name__ == "__main__":
    main()
