#!/usr/bin/env python3
"""The places of docs/DESIGN-PASS.md in src/, at a commit: python3 tools/places.py COMMIT [POINT]

With a point (as 3 or 1a) each place is printed, else the counts alone."""
import collections
import re
import subprocess
import sys

COMMIT = sys.argv[1]
ONLY = sys.argv[2] if len(sys.argv) > 2 else None

# A line that matches is a place. What is named there is looked at one by one in the page.
LINES = {
    "1a": ("own enums", r"^(pub )?enum \w+"),
    "1b": ("variants that say nothing, or no", r"^    (None|Nothing|Absent|End|Refused|Wrong|NotNumber|NotSigned|NotBytes|Taken)\b"),
    "1c": ("refusals as numbers", r"\brefusal: u\d+|fn \w*refusal\w*\(.*-> u\d+|^\) -> u8$"),
    "1d": ("constants that number refusals and kinds", r"^pub const (ACCEPTED|STATE_NOT_VALID|NOT_CARRIED|READ_ONLY|CONFIG_NOT_ALLOWED|NO_SUCH_CHANNEL"
           r"|SPEED_OUT_OF_RANGE|START_OUT_OF_RANGE|WRONG_WIDTH|STRING_ENDS|LONG_FORM|NUMBER_TOO_LARGE|NO_RECORD|ANSWERS_TOO_SHORT|NO_TABLE"
           r"|ROWS_OUTSIDE|TEMPERATURE_OUT_OF_RANGE|WRITE|READ|TICKS|TACHOMETER|PIN|WRITE_WORD|PULSE)\b"),
    "1e": ("numbers that stand for none, flags beside a value", r"^        16$|^    16$|shift: 8,|^    8$|1099511627776|place: ROWS|ended: bool"
           r"|slots: \[u64; 6\],$|modification: u8|asserted: bool|wide: bool"),
    "3": ("loops", r"^\s*(while|loop)\b|\bfor \w+ in [(]?[0-9a-zA-Z_]+\.\."),
    "4a": ("copies changed field by field", r"let mut next = (state|channel|hand|progress);"),
    "4b": ("conversions and library arithmetic by hand",
           r"fn (flag|of_byte|of_word|of_long|widened|integer|short|bits|magnitude|without_byte|order_of|results_of|temperature|long|held_in_range"
           r"|lesser|least|above|one_less|one_more|one_further|next_line|at_least_one|fall|zero_state)\("),
    "4c": ("bools and numbers widened by `as`", r"\b(high|byte|word|n|count|duty|ticks|refusal|row) as (u16|u32|u64|i32)\b"),
    "5a": ("a buffer and the place in it", r"out: &mut \[u8\], at: usize|^    at: usize,$"),
    "5b": ("that an index is below 6", r"requires \{ \(?(i|k|index_of place|status_index register) < 6"),
    "5c": ("that a state is valid", r"requires \{.*valid_of state ≡ true"),
    "5d": ("bounds of the clock", r"requires \{.*clock < 2 \^ \d+"),
    "5e": ("the two tables", r"normal: &('a )?\[u8\], quiet: &('a )?\[u8\]|^    normal: &('a )?\[u8\],$"),
    "6": ("lengths beside what they are of, packed texts", r"usage: \[u8; 51\]|pub long: usize|slots: \[u64; 6\],$|NAMES: \[u8|pub count: usize|kept: usize,$|total: usize,$"),
    "7": ("a choice of steps", r"match (verb|view|kind|request|order|call) \{"),
}


def git(*args):
    return subprocess.run(["git", *args], capture_output=True, text=True, check=True).stdout


def sources():
    for path in git("ls-tree", "-r", "--name-only", COMMIT).split("\n"):
        if re.match(r"crates/\w+/src/.*\.rt$", path):
            yield path, git("show", f"{COMMIT}:{path}").split("\n")


def functions(path, lines):
    """The functions of a file: name, and the body with each name and number made alike."""
    name, start = None, None
    for i, line in enumerate(lines):
        found = re.match(r"\s*(pub(\(crate\))? )?fn (\w+)", line)
        if found:
            name, start = found.group(3), None
        elif name and re.match(r"\s*\{$", line):
            start, indent = i + 1, line
        elif name and start and line == indent.replace("{", "}"):
            body = " ".join(lines[start:i])
            tokens = re.findall(r"\w+|[^\w\s]+", re.sub(r"//.*", "", body))
            yield f"{path}: {name}", tuple("#" if re.match(r"\d", t) else "x" if re.match(r"[a-z_]\w*$", t) and t not in KEEP else t for t in tokens)
            name = None


KEEP = {"if", "else", "return", "match", "for", "in", "while", "let", "mut", "as", "loop", "true", "false"}


def main():
    places = collections.defaultdict(list)
    bodies = collections.defaultdict(list)
    for path, lines in sources():
        for number, line in enumerate(lines, 1):
            for point, (_, pattern) in LINES.items():
                if re.search(pattern, line):
                    places[point].append(f"{path}:{number}: {line.strip()}")
        for place, body in functions(path, lines):
            if len(body) >= 12:
                bodies[body].append(place)
    for twins in bodies.values():
        if len(twins) > 1:
            places["2"].append(" = ".join(twins))
    titles = {point: title for point, (title, _) in LINES.items()} | {"2": "functions alike but for names and numbers"}
    for point in sorted(titles):
        if ONLY is None or ONLY == point:
            print(f"{point}: {titles[point]}: {len(places[point])}")
        if ONLY == point:
            print("\n".join("  " + place for place in places[point]))


main()
