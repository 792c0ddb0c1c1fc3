"""How the repository is laid out: layers, contracts, edits that must fail, links, slips in scripts, spelling, copies and the version; where
memory is said to be refused, and arithmetic of 32 bits."""
import collections
import os
import re
import subprocess
import tempfile

ROOT = os.path.dirname(os.path.dirname(os.path.realpath(__file__)))


def read(*path):
    with open(os.path.join(ROOT, *path), encoding="utf-8") as file:
        return file.read()


def tracked(*patterns):
    """The files of the repository that git knows or would add, by patterns of git."""
    listed = subprocess.run(["git", "ls-files", "-z", "--cached", "--others", "--exclude-standard", "--", *patterns], cwd=ROOT, stdout=subprocess.PIPE, text=True, check=True).stdout
    found = sorted(it for it in listed.split("\0") if it and os.path.isfile(os.path.join(ROOT, it)) and not os.path.islink(os.path.join(ROOT, it)))
    assert found, f"no file is like {patterns}"
    return found


def is_script(path, *words):
    with open(os.path.join(ROOT, path), "rb") as file:
        first = file.readline(80).decode(errors="replace")
    return first.startswith("#!") and any(it in first for it in words)


def test_layers():
    """A crate uses crates of its own layer or of one before it, in the table of docs/ARCHITECTURE.md."""
    layers = re.split(r"^\| \*\*\w+\*\* \|", read("docs", "ARCHITECTURE.md"), flags=re.M)
    order = {crate: number for number, rows in enumerate(layers) for crate in re.findall(r"^\| `crates/(\w+)` \|", rows, re.M)}
    lines = [it.split("#")[0] for it in read("crates.txt").split("\n")]
    below = {it.split(":")[0].split()[0]: it.split(":")[1].split() for it in lines if ":" in it}
    assert set(below) == set(order) == set(os.listdir(os.path.join(ROOT, "crates")))
    assert [f"{crate} uses {low}" for crate, lows in below.items() for low in lows if order[low] > order[crate]] == []


def bare_functions(path):
    """The public functions of a file without `ensures`: a signature ends where its line ends with a brace, or a line is one."""
    text = read(path)
    for found in re.finditer(r"^ *pub (?:const )?fn (\w+)", text, re.M):
        head = re.match(r"(?:(?!\n\s*\{\n)(?!(?<=[^\n]) \{\n(?! *(?:requires|ensures)))[\s\S])*", text[found.start():])[0]
        if "ensures" not in head:
            yield found[1]


def test_public_functions_have_contracts():
    """Those of what ships without `ensures` are in the table of docs/GUARANTEES.md."""
    section = read("docs", "GUARANTEES.md").partition("# Public functions without a contract\n")[2].split("\n#")[0]
    listed = set(re.findall(r"^\| `([\w.]+)` \|", section, re.M))
    found = set()
    for path in tracked("crates/*/src/**.rt"):
        crate, _, module = path[len("crates/"):-len(".rt")].partition("/src/")
        if not crate.startswith("dev_") and not re.search(r"(^|/)tests?(/|$)", module):
            found |= {f"{crate}.{module.replace('/', '.')}.{name}" for name in bare_functions(path)}
    assert found == listed


def test_edits_apply():
    """`rt ci` passes over an edit whose text isn't in its file once."""
    edits = tracked("crates/*/must-fail/*.edit", "mutants/edits/*/*.edit")
    for edit in edits:
        parts, files, current = edit.split("/"), {}, None
        crate = os.path.join("crates", parts[1] if parts[0] == "crates" else parts[2])
        for line in read(edit).split("\n"):
            key, _, value = line.partition(": ")
            if key == "file":
                current = files.setdefault(value, [read(crate, value)]), value
            elif key == "old":
                assert files[current[1]][0].count(value) == 1, f"{edit}: {value!r} isn't in {current[1]} once"
                old = value
            elif key == "new":
                files[current[1]][0] = files[current[1]][0].replace(old, value)
        assert files, f"{edit} has no edit"


def test_links():
    """Files and sections that documents link to are there."""
    wrong = []
    for document in tracked("*.md"):
        text = re.sub(r"^```.*?^```", "", read(document), flags=re.M | re.S)
        for target in re.findall(r"\]\(<?([^)\s>]+)>?(?:\s+\"[^\"]*\")?\)", re.sub(r"`[^`\n]*`", "", text)):
            path, _, section = target.partition("#")
            if re.match(r"[a-z]+:", target):
                continue
            other = os.path.normpath(os.path.join(os.path.dirname(document), path)) if path else document
            if not os.path.exists(os.path.join(ROOT, other)):
                wrong.append(f"{document}: {path}")
            elif section and other.endswith(".md"):
                headings = re.findall(r"^#+ +(.*?) *$", read(other), re.M)
                if section not in {re.sub(r"[^\w\- ]", "", it.lower()).replace(" ", "-") for it in headings}:
                    wrong.append(f"{document}: {target}")
    assert wrong == []


def output(*command):
    done = subprocess.run(command, cwd=ROOT, stdout=subprocess.PIPE, stderr=subprocess.STDOUT, text=True)
    return done.stdout if done.returncode else ""


def test_python_scripts():
    assert output("pyflakes3", *(it for it in tracked() if it.endswith(".py") or is_script(it, "python"))) == ""


def test_shell_scripts():
    assert output("shellcheck", "--severity=warning", *(it for it in tracked() if is_script(it, "/bash", "/sh"))) == ""


def test_spelling():
    assert output("codespell", "--ignore-words-list=crate,crates,modul,nin,ths,ot,fiel", *tracked("*.md", "*.rt", "*.py", "*.mjs", "*.c", "*.h")) == ""


def test_copies_and_version():
    assert output("tools/copies") == ""


# ---- refused memory

# Where `OutOfMemory` may be named, by crate and function or enum: how often, and why.
ALLOWED = {
    ("subsetter_base", "enum Error"): (1, "the case itself"),
    ("subsetter_base", "fmt"): (1, "its text"),
    ("subsetter_c", "status_of"): (1, "its status"),
    ("subsetter_base", "write_decimal"): (1, "`write!` reports a refused request as fmt::Error, and a number's text has no other error"),
    ("pdf_names", "write_whole"): (1, "`write!` reports a refused request as fmt::Error, and a number's text has no other error"),
    ("pdf_text", "write_cid"): (1, "`write!` reports a refused request as fmt::Error, and a number's text has no other error"),
    ("pdf_text", "write_integer"): (1, "`write!` reports a refused request as fmt::Error, and a number's text has no other error"),
    ("pdf_text", "write_count"): (1, "`write!` reports a refused request as fmt::Error, and a number's text has no other error"),
    ("pdf_runs", "enum RunError"): (1, "the case itself"),
    ("pdf_operators", "parts_of_run"): (1, "`words_of_run` has no other error"),
    ("pdf_operators", "push_part"): (1, "`pieces_of_clusters` has no other error"),
    ("pdf_operators", "add_codes"): (1, "`pieces_of_clusters` has no other error"),
    ("pdf_operators", "code_pieces"): (1, "of `codes_of` without OverflowError"),
    ("pdf_operators", "show_run"): (1, "`clusters_of_run` has no other error"),
    ("pdf_operators", "write_run"): (1, "`write_operators` has no other error"),
    ("pdf_operators", "write_integer"): (1, "`write!` reports a refused request as fmt::Error, and a number's text has no other error"),
    ("pdf_operators", "write_whole"): (1, "`write!` reports a refused request as fmt::Error, and a number's text has no other error"),
    ("pdf_own_runs", "items_with_own"): (1, "of `figured_items` without OverflowError"),
    ("subset_args", "enum ArgsError"): (1, "the case itself"),
    ("subset_task", "no_memory"): (4, "its argument is an allocator's refusal"),
    ("subset_task", "push_picked"): (1, "takes memory and has no other error"),
    ("subset_font", "text_of"): (1, "`json_numbers` writes into a vector, which has no other error"),
    ("subset_task", "after_name"): (1, "`collect` takes memory and has no other error"),
    ("subset_task", "read_arguments"): (2, "the system's own error for memory"),
    ("subset_batch", "enum Unread"): (1, "the case itself"),
    ("subset_batch", "read_request"): (2, "passes on that of `request_in`"),
    ("subset_task", "order_of"): (2, "passes on that of `read_request`"),
    ("subset_task", "order_by"): (2, "passes on that of `read_words`"),
    ("subset_task", "enum Answer"): (1, "the case itself"),
    ("subset_task", "failed"): (1, "its argument is the result of a request"),
    ("subset_task", "has_failed"): (1, "looks at it"),
    ("subset_task", "write_answer"): (1, "looks at it"),
    ("subset_font", "batch_or_status"): (1, "its argument is an allocator's refusal"),
    ("subset_font", "printed"): (1, "`write_numbers` writes into a vector, which has no other error"),
    ("subset_font", "answer_failed"): (3, "compares with it; the texts of `text_of` take memory, and have no other error"),
    ("subset_font", "refuse_memory"): (1, "reports what `BufWriter::new` and the other requests before a batch refused"),
    ("subset_args", "enum Unread"): (1, "the case itself"),
    ("subset_args", "characters_listed"): (2, "passes on that of `read_characters`"),
    ("subset_args", "glyphs_listed"): (2, "passes on that of `read_argument`"),
    ("subset_args", "numbers_listed"): (2, "passes on that of `glyphs_of`"),
    ("subset_args", "read_at"): (2, "passes on that of `position_of`"),
    ("subset_font", "run_words"): (2, "passes on that of `read_words`"),
    ("subset_task", "unread"): (1, "a failure to read of which the reader kept no error is one of memory"),
    ("subset_task", "read_list_file"): (2, "passes on that of `read_list`"),
    ("subset_font", "carry_buffered"): (1, "`BufWriter::new` takes memory and has no other error"),
    ("subset_font", "show_buffered"): (1, "`BufWriter::new` takes memory and has no other error"),
    ("subset_font", "is_of_memory"): (1, "compares with it"),
    ("subset_font", "size_within"): (1, "that of `make_planned`, by `is_of_memory`"),
    ("subset_font", "other_limit"): (1, "passes on that of `too_little`"),
    ("subset_font", "limit_hint"): (1, "passes on that of `too_long`"),
    ("subset_font", "parts_of"): (1, "passes on that of `make_of`"),
    ("subset_font", "show_face"): (3, "`tables_of`, `pictures_of` and `try_all` have no other error"),
    ("subset_font", "look_again"): (1, "`explain` has no other error"),
    ("subset_font", "second_look"): (1, "passes it by"),
    ("subset_font", "known_kinds"): (2, "that of `kinds_of`, by its name"),
    ("subset_font", "is_blank"): (2, "that of `unseen_glyphs`, by its name"),
    ("subset_font", "unless_blank"): (1, "`is_blank` has no other error"),
    ("subset_pdf", "named"): (2, "that of `show_run`, by its name"),
    ("subset_task", "report_none"): (1, "`NameTable::new` has no other error"),
    ("subset_task", "push_name"): (1, "`text_of_name` writes into a vector, which has no other error"),
    ("subset_task", "instance_settings"): (1, "`settings_of` has no other error"),
    ("subsetter_instance", "slant_by"): (2, "passes on that of `axes`"),
    ("subset_task", "known_axes"): (2, "passes on that of `axes_there`"),
    ("subset_font", "lines_of_sizes"): (1, "`size_lines` writes into a vector, which has no other error"),
    ("subset_font", "members_of"): (1, "`json_members` writes into a vector, which has no other error"),
    ("subset_font", "member_of"): (1, "`json_pdf` writes into a vector, which has no other error"),
    ("subset_font", "with_more"): (2, "`more_of` and `names_for` have no other error"),
    ("subset_task", "names_of_fvar"): (2, "passes on that of `read_axes`"),
    ("glyph_kinds", "entries_of"): (2, "passes on that of `Table::parse`"),
    ("pdf_cff", "unless_memory"): (2, "passes on that of its argument"),
    ("subsetter_boxes", "unless_memory"): (2, "passes on that of its argument"),
    ("subset_pdf", "unless_memory"): (2, "passes on that of its argument"),
    ("own_choice", "size_at"): (2, "passes on that of `draw`"),
    ("glyph_names", "read_charset"): (2, "passes on that of `Table::parse`"),
    ("subsetter_text_c", "add_pairs"): (1, "of `codes_of` without OverflowError"),
    ("subsetter_text_c", "glyphs_of"): (1, "`OwnGlyphs::of` has no other error"),
    ("subsetter_text_c", "owns_of"): (1, "ends of parts past 32 bits, which memory doesn't hold"),
    ("subsetter_text_c", "pairs_of"): (1, "`no_pairs` has no other error"),
    ("subsetter_text_c", "characters_of_numbers"): (1, "`characters_of` has no other error"),
    ("subsetter_c", "run_status"): (1, "its status"),
    ("text_metrics", "columns_there"): (2, "`tops_of` and `columns_at` of glyphs below 65,535 have no other error"),
    ("subsetter_c", "font_for"): (3, "passes on those of `pairs_of` and `own_of`"),
}
WORDS = re.compile(r"\bOutOfMemory\b|\bNoMemory\b|\b(?:AllocError|AllocFailed)\b(?!\s*[>,}]|<\w)")
# `Unwritten` of plain_text is that a writer failed: a write or a request that failed is right before it.
UNWRITTEN = re.compile(r"(?<!struct )\bUnwritten\b(?!\s*[>,}])")
FAILED = re.compile(r"(?:\.is_err\(\)\)*\s*(?:\{\s*return|=>)|\blet Ok\(\w+\) = [\w\s(.,)]+\belse\s*\{\s*return) Err\($|\.map_err\(\|_\| $")
# Clauses, ghost items, tests and `From` don't count.
HEADS = (r"\b(?:requires|ensures)\b[*]?[^{\n]*\{", r"\bghost \w+\s*[:=]\s*\{", r"#\[cfg\(test\)\]\s*(?:pub )?mod \w+\s*\{", r"#\[test\]", r"\bimpl(?:<[^{]*>)? From<[^{]*\{")


def without_braces(text, start):
    """A text without the braces that open first at or after a place, and what is before them from there."""
    depth = 0
    for at in range(text.index("{", start), len(text)):
        depth += {"{": 1, "}": -1}.get(text[at], 0)
        if depth == 0:
            return text[:start] + text[at + 1:]
    raise ValueError("braces that don't end")


def code_of(text):
    text = re.sub(r'//[^\n]*|b?"(?:\\.|[^"\\])*"|\'(?:\\.|[^\'\\])\'', "", text)
    text = re.sub(r"\b(?:ghost )?(?:pub )?use [^;]*;", "", text)
    for head in HEADS:
        while found := re.search(head, text):
            text = without_braces(text, found.start())
    return text


def places():
    """The code of each place, with its crate, the function or enum, the word, and what is before it."""
    for path in tracked("crates/*/src/**.rt"):
        crate, _, module = path[len("crates/"):].partition("/src/")
        if re.search(r"(^|/)tests?(/|\.rt$)", module):
            continue
        code = code_of(read(path))
        for pattern in (WORDS, UNWRITTEN) if crate in ("plain_text", "subset_lines") else (WORDS,):
            for found in pattern.finditer(code):
                items = re.findall(r"\bfn (\w+)|\b(enum \w+)", code[:found.start()])
                yield crate, "".join(items[-1]) if items else "", found[0], code[:found.start()]


def test_out_of_memory():
    """`OutOfMemory` is returned only where memory was refused.

    A contract can't tell a refused request from a lie: "or memory ran out" holds of both. A refused request becomes the error by `?`; each
    other place in crates/*/src whose code names the case, a batch's `NoMemory` or an allocator's refusal is listed with its reason.
    """
    found = list(places())
    counts = collections.Counter((crate, item) for crate, item, word, _ in found if word != "Unwritten")
    assert counts == {key: count for key, (count, _) in ALLOWED.items()}
    unwritten = [(item, front[-300:]) for _, item, word, front in found if word == "Unwritten"]
    assert unwritten and [it for it in unwritten if not FAILED.search(it[1])] == []


# ---- a usize of 32 bits

PLACE = r".*?// scope \d+ at src/proved/((\w+)/\S+:\d+:\d+: \d+:\d+)"
STEP = re.compile(r"^ +(\S+) = (?:Add|Mul|Shl)(?:WithOverflow|Unchecked)?\(" + PLACE, re.M)
CAST = re.compile(r"^ +\S+ = (?:copy|move|const) (.*?) as (\w+) \(IntToInt\);" + PLACE, re.M)
CALL = re.compile(r"(?:num::<impl [ui]size>::(?!saturating_sub|checked_sub|abs_diff|min|max\b|is_power_of_two|div_ceil)\w+\(|num::<impl [ui]size>::(?:MAX|BITS)\b|"
                  r"<&?[ui]size as (?:[\w:]*::)?(?:Add|Mul|Shl|AddAssign|MulAssign|ShlAssign|Sum|Product)\b|::(?:sum|product)::<[ui]size>\()" + PLACE)
SIZES = ("usize", "isize")
# What keeps its value on 32 bits: to `usize` from these, and from `usize` to those.
TO_WORD, FROM_WORD = ("u8", "u16", "u32", "usize", "bool", "char"), ("u64", "i64", "u128", "i128", "usize")


def mir_of_crate():
    """The MIR of the library with all features, by Cargo in a folder of its own."""
    with tempfile.TemporaryDirectory(prefix="width-") as room:
        env = {key: value for key, value in os.environ.items() if key not in ("RUSTFLAGS", "CARGO_ENCODED_RUSTFLAGS", "CARGO_BUILD_TARGET")}
        command = ["cargo", "rustc", "--offline", "--quiet", "--lib", "--features", "program", "--", f"--emit=mir={room}/mir", "-Zmir-include-spans=on", "-C",
                   "overflow-checks=on", "-C", "debug-assertions=on", "--cap-lints=allow"]
        subprocess.run(command, cwd=os.path.join(ROOT, "bindings", "rust"), env={**env, "RUSTC_BOOTSTRAP": "1", "CARGO_TARGET_DIR": f"{room}/target"}, check=True)
        with open(f"{room}/mir", encoding="utf-8") as file:
            return file.read()


def kind_of(operand, kinds):
    """The type of an operand by the types of a body's locals, `?` where it isn't seen."""
    named, field, element = re.search(r"_([ui](?:8|16|32|64|128|size))$", operand), re.search(r": ([^()]+)\)+$", operand), re.match(r"\(?\*?(_\d+)\)?\[", operand)
    if named or field:
        return named[1] if named else field[1].lstrip("&").replace("mut ", "")
    if element:
        inner = re.search(r"\[(\w+)", kinds.get(element[1], ""))
        return inner[1] if inner else "?"
    return re.sub(r"^&(?:'\S+ )?(?:mut )?", "", kinds.get(operand.strip("(*)"), "?"))


def steps_in(body):
    """Where a body has such steps, each with its crate."""
    kinds = dict(re.findall(r"(_\d+): (.*?)(?=, _\d+: |\) -> )", body.split("\n", 1)[0]))
    kinds.update(re.findall(r"let (?:mut )?(_\d+): ([^;]+);", body))
    for made, *place in STEP.findall(body):
        if kind_of(made, kinds).strip("(").split(",")[0] in SIZES:
            yield place
    for operand, kind, *place in CAST.findall(body):
        given = kind_of(operand, kinds)
        if (given in SIZES and (kind not in FROM_WORD or (given == "isize" and kind.startswith("u")))) or (kind in SIZES and given not in (*SIZES, *TO_WORD)):
            yield place
    yield from CALL.findall(body)


def test_width():
    """The arithmetic of `usize` in each generated crate was reviewed for 32 bits.

    The sources are proved for a `usize` of 64 bits. On 32 bits a sum may pass its range, and a cast may cut another number. The compiler's
    MIR of src/proved says where such a step is: sums, products and left shifts of `usize` and `isize`, casts from them to a narrower number
    and to them from a wider or a signed one, and calls of their own arithmetic. Each crate with such steps is a row of tests/data/width.txt:
    how many they are, and why they are right on 32 bits. Where the number is another one, the steps that came have to be reviewed.
    (RUSTC_BOOTSTRAP=1 lets a stable compiler print places in MIR. tests/platforms runs the rows on 32 bits with overflow checks.)
    """
    found = collections.defaultdict(set)
    for body in re.split(r"\n(?=(?:fn|const|static) )", mir_of_crate()):
        for place, crate in steps_in(body):
            found[crate].add(place)
    reviewed = {crate: int(count) for crate, count in re.findall(r"^(\w+) (\d+) ", read("tests", "data", "width.txt"), re.M)}
    assert {crate: len(places) for crate, places in found.items()} == reviewed and len(found) >= 20
