"""The viewer of a page, joined from its parts: what is written before the story of a page, and what is written after it."""

MODULES = ("page.js", "given.js", "story.js", "steps.js", "ways.js", "layout.js", "drawing.js", "camera.js", "texts.js", "list.js", "controls.js")


def script(folder):
    """The script of a page. It offers one object, `viewer`, which the lab uses."""
    modules = "".join((folder / it).read_text(encoding="utf-8") for it in MODULES)
    return f"const viewer = (() => {{\n'use strict';\n{modules}begin();\nreturn offered;\n}})();\n"


def parts(folder):
    """The two parts, made of the files in this folder."""
    return (folder / "head.html").read_text(encoding="utf-8"), f"</script>\n<script>\n{script(folder)}</script>\n</html>\n"
