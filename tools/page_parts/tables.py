"""Tables that are made from the sources."""
import re

from page_parts import sources

LINES, ACTS = "uvm_lines/specs/Lines.antt", "uvm_acts/src/acts.rt"

# The words of a form, by the function that writes a value, or by the name of the variable.
WORDS = {
    "path_text": "PATH", "item_text": "ITEM", "some_item_text": "ITEM", "value_text": "VALUE", "answer_text": "yes", "kind_text": "KIND",
    "mode_text": "MODE", "how_text": "HOW", "what_text": "WHAT", "which_text": "WHICH", "actions_text": "ACTIONS", "id_text": "ID",
    "priority_text": "PRIORITY", "phase_name": "PHASE", "replace_text": "", "type_name": "TYPE", "original": "TYPE", "id": "NUMBER",
    "report.severity": "SEVERITY", "report.id": "ID",
}

# What else may be written for a value, by the same functions.
OTHERS = {
    "some_item_text": "ITEM or `none`", "value_text": "VALUE or `none`", "priority_text": "PRIORITY or `none`", "id_text": "ID or `none`",
    "answer_text": "or `no`", "replace_text": "or with ` replace`",
}

# The definitions whose numbers are limits, by their files.
LIMITS = [
    ("uvm_glob/specs/Limits.antt", ["most_name_bytes", "most_names", "most_text_bytes"]),
    ("bench_script/specs/Limits.antt", ["most_script_bytes", "most_time", "most_quit_limit"]),
    ("uvm_factory/specs/Faults.antt", ["most_types"]),
    ("uvm_config/specs/Answers.antt", ["most_settings"]),
    ("uvm_tree/specs/Nodes.antt", ["most_nodes"]),
    ("bench_history/specs/Limits.antt", ["most_acts", "most_ticks", "usual_priority", "log_limit"]),
]


def table(heads, rows):
    """Returns a table of a page."""
    lines = [heads, ["---"] * len(heads), *rows]
    return "\n".join("| " + " | ".join(cell.replace("|", "\\|").replace("\n", " ") for cell in line) + " |" for line in lines)


def form(text):
    """Returns the form of a line, as `send ITEM`, from the right side of its equation."""
    out = ""
    for part in text.split(" ++ "):
        while code := re.match(r"(\d+) ∷ (.*)", part):
            out, part = out + chr(int(code[1])), code[2]
        if literal := re.match(r'codes "(.*)"$', part):
            out += literal[1]
        elif part != "[]":
            function, _, argument = part.rpartition(" ")
            out += next((WORDS[key] for key in (function, argument) if key in WORDS), argument.upper())
    return out


def cell(function, variant, start=""):
    """Returns the form of a variant as a page shows it, with what else may be written."""
    text = sources.equations(LINES, function)[variant]
    others = [words for key, words in OTHERS.items() if re.search(rf"\b{key}\b", text)]
    return f"`{start}{form(text)}`" + (f" ({', '.join(others)})" if others else "")


def forms(function):
    return {variant: form(text) for variant, text in sources.equations(LINES, function).items()}


def plain(text, calls, acts):
    """Returns a comment in the words of the transcript."""
    for name, words in (("Call", calls), ("Act", acts)):
        text = re.sub(rf"`{name}::(\w+)`", lambda found: f"`{words[found[1]].split(' ')[0]}`", text)
    return re.sub(r"`(Next|Try|Get)`", lambda found: f"`{found[1].lower()}`", text)


def of_calls():
    calls, acts = forms("call_text"), forms("act_text")
    rows = [(cell("call_text", name), plain(comment, calls, acts)) for name, comment in sources.variants(ACTS, "Call")]
    return table(["call", "what it says"], rows)


def of_actions():
    calls, acts = forms("call_text"), forms("act_text")
    rows = []
    for name, comment in sources.variants(ACTS, "Act"):
        rows.append((cell("act_text", name), plain(comment, calls, acts)))
        if name == "Add":
            rows += [(cell("what_text", what, "add NAME "), plain(note, calls, acts)) for what, note in sources.variants(ACTS, "What")]
    return table(["action", "what it does"], rows)


def of_fatal_reports():
    path = "uvm_object/src/fatals.rt"
    ids, texts = sources.arms(path, "id"), sources.arms(path, "text")
    rows = [(f"`{ids[name]}`", texts[name], note(comment)) for name, comment in sources.variants(path, "Fatal")]
    return table(["id", "text", "when"], rows)


def note(comment):
    """Returns a comment without the id with which it begins."""
    text = re.sub(r"^[A-Z_]+: ", "", comment)
    return text[0].upper() + text[1:]


def of_script_faults():
    path = "script_values/src/faults.rt"
    labels = sources.arms(path, "label")
    rows = [(labels[name].removeprefix("script fault "), comment) for name, comment in sources.variants(path, "ScriptFault") if name != "Memory"]
    return table(["script fault", "when"], rows)


def of_answer_faults():
    path = "script_objects/src/faults.rt"
    texts = sources.arms(path, "fmt")
    rows = [(f"`{texts[name]}`", comment) for name, comment in sources.variants(path, "AnswerFault") if name != "Memory"]
    return table(["text", "when"], rows)


def number(text):
    """Returns a number as a page writes it."""
    if two := re.match(r"if script.version == 2 then (\d+) else (\d+)", text):
        return f"{int(two[2]):,}; in version 2 of scripts {int(two[1]):,}"
    if re.fullmatch(r"10+", text) and len(text) > 9:
        return f"10^{len(text) - 1}"
    return f"{int(text):,}" if text.isdigit() else text.replace(" ", "")


def of_limits():
    rows = []
    for path, names in LIMITS:
        found = {it.name: it for it in sources.definitions(sources.CRATES / path)}
        rows += [(found[name].comment[0].upper() + found[name].comment[1:], number(found[name].value)) for name in names]
    return table(["limit", "value"], rows)


def of_bus_objects():
    rows = []
    for name, _ in sources.variants("bus_objects/src/objects.rt", "BusObject"):
        file = re.sub(r"(?<!^)(?=[A-Z])", "_", name).lower()
        rows.append((f"`{file}`", sources.struct_comment(f"bus_objects/src/{file}.rt", name)))
    return table(["type", "what an object of it does"], rows)


def of_crates():
    return table(["crate", "content"], [(f"`{crate}`", sources.first_comment(crate)) for crate in sources.crates()])


def page_of_definitions():
    """Returns the page of all public definitions."""
    parts = ["# Definitions", "Generated by `tools/pages` from the comments in `crates/*/specs/`. docs/TRUST.md says which of these a reader needs."]
    for crate in sources.crates():
        for path in sorted((sources.CRATES / crate / "specs").glob("**/*.antt")):
            found = sources.definitions(path)
            if found:
                rows = [(f"`{it.name}`", it.comment) for it in found]
                parts += [f"## {path.relative_to(sources.CRATES)}", table(["name", "meaning"], rows)]
    return "\n\n".join(parts) + "\n"


def page_of_contracts():
    """Returns the page of all public functions."""
    parts = ["# Contracts", "Generated by `tools/pages` from the doc comments of public functions and from the labels of their clauses. `(one)` is a clause"
             " without a label. Every function is safe and returns if its `requires` hold. A call that can fail with out of memory may do so"
             " in place of the result described."]
    for crate in sources.crates():
        for path in sorted((sources.CRATES / crate / "src").glob("**/*.rt")):
            found = sources.functions(path)
            if found:
                rows = [(f"`{it.name}`", it.comment, ", ".join(it.requires), ", ".join(it.ensures)) for it in found]
                parts += [f"## {path.relative_to(sources.CRATES)}", table(["call", "what it does", "requires", "ensures"], rows)]
    return "\n\n".join(parts) + "\n"


PARTS = {
    "calls": of_calls, "actions": of_actions, "fatal reports": of_fatal_reports, "script faults": of_script_faults,
    "answer faults": of_answer_faults, "limits": of_limits, "bus objects": of_bus_objects, "crates": of_crates,
}
PAGES = {"docs/generated/DEFINITIONS.md": page_of_definitions, "docs/generated/CONTRACTS.md": page_of_contracts}
