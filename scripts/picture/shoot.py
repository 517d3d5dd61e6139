"""Takes a picture of a page, or of a part of it, by headless Chromium.

    python3 -m picture.shoot [--dark] [--state K] FILE.html OUT.png WIDTH HEIGHT [NUMBER [BLOCK]]

With NUMBER the procedure of that number is shown alone, and with BLOCK the grid of one of its
blocks; with --state in the state K of its slider, from 0. WIDTH and HEIGHT are those of the window,
in pixels. What the browser's console says goes to standard error.
"""

import os
import subprocess
import sys
import tempfile

from picture.compare import CHROMIUM, PATIENCE, console

ALONE = "header, main > :not(#p{number}) {{ display: none; }} body {{ padding: .5rem; }}"
BLOCK = """
section.procedure {{ border: 0; margin: 0; }}
summary, .sentence, .body > :not([id="p{number}b{block}"], [id="p{number}b{block}"] + *) {{
  display: none;
}}
h3 {{ margin-top: 0; }}
.grid-box {{ max-height: none; }}
"""
DARK = "--blink-settings=preferredColorScheme=0"


def part_of(html, number, block):
    """The page with a style that hides the rest."""
    style = ALONE.format(number=number)
    if block:
        style += BLOCK.format(number=number, block=block)
    return html.replace("</head>", f"<style>{style}</style></head>", 1)


def take_options(words):
    """Whether it is dark, the state of sliders or None, and the other words."""
    words, state = list(words), None
    is_dark = "--dark" in words
    if is_dark:
        words.remove("--dark")
    if "--state" in words:
        at = words.index("--state")
        state = words[at + 1]
        del words[at : at + 2]
    return is_dark, state, words


def main(*words):
    is_dark, state, words = take_options(words)
    page, out, width, height, number, block = (*words, None, None)[:6]
    with open(page, encoding="utf-8") as text:
        html = text.read()
    place = f"#p{number}" if number else ""
    place += f"b{block}" if block else ""
    place = f"#all@{state}" if state else place
    with tempfile.TemporaryDirectory(prefix="chromium-") as room:
        with open(f"{room}/page.html", "w", encoding="utf-8") as text:
            text.write(part_of(html, number, block) if number else html)
        command = [*CHROMIUM, f"--user-data-dir={room}/user", f"--window-size={width},{height}"]
        command += [f"--screenshot={os.path.abspath(out)}", *([DARK] if is_dark else [])]
        command += [f"file://{room}/page.html{place}"]
        ran = subprocess.run(command, capture_output=True, timeout=PATIENCE)
    for line in console(ran.stderr):
        print(line, file=sys.stderr)
    return ran.returncode


if __name__ == "__main__":
    sys.exit(main(*sys.argv[1:]))
