"""Reads the calls of the library for C, and their structs, from the places where they stand: what crates/raptorq_c exports and
library/constants.c defines, what include/reamertan.h declares, and what wrapper/src/calls.rs declares. A type is spelled as in Rust. A
call is its parameters, as pairs of name and type, and its result; a struct is its fields, as such pairs. The declarations of
python/reamertan/_calls.py, by ctypes, are compared as they are."""
import ctypes
import re

# What calls keep behind pointers, by its names in C, and what stands for all of them in Rattle: what a pointer of C's points to, and the
# pointer, where a call writes it.
CODERS = {"encoder", "plan", "block_encoder", "decoder", "block_decoder"}
KEPT, SLOT = "Kept", "Slot"
CTYPES = {
    "()": None,
    "bool": ctypes.c_bool,
    "u8": ctypes.c_uint8,
    "u16": ctypes.c_uint16,
    "u32": ctypes.c_uint32,
    "u64": ctypes.c_uint64,
    "usize": ctypes.c_size_t,
}
C_TYPES = {"uint8_t": "u8", "uint16_t": "u16", "uint32_t": "u32", "uint64_t": "u64", "size_t": "usize", "void": "()"}


def squeezed(text):
    return " ".join(text.split())


def parts(text, separator):
    return [squeezed(part) for part in text.split(separator) if part.strip()]


def camel(name):
    return "".join(word.capitalize() for word in name.split("_"))


def c_pair(text):
    """The name and the type of a parameter, a field or a call in C."""
    found = re.fullmatch(r"(const )?(struct )?(reamertan_)?(\w+) (\*{0,2})(\w+)(\[REAMERTAN_CONFIGURATION_BYTES\])?", text)
    if not found or found[3] and not found[2] and (found[1] or found[4] not in CODERS or not found[5]):
        raise ValueError(f"no parameter, field or call of C that can be read: {text}")
    constant, _, own, kind, stars, name, array = found.groups()
    kind = camel(kind) if own else C_TYPES.get(kind, kind)
    if array:
        kind = "Configuration"
    if stars == "**":
        kind = f"*mut {kind}"
    return name, f"*{'const' if constant else 'mut'} {kind}" if stars or array else kind


def c_calls(text, end):
    """The calls in C behind whose parameters these characters stand, in their order."""
    calls = {}
    for call, parameters in re.findall(r"^(\w[\w *]* \*?reamertan_\w+)\(([^()]*)\)" + end, text, re.M):
        name, result = c_pair(call)
        calls[name] = [] if parameters == "void" else [c_pair(part) for part in parts(parameters, ",")], result
    return calls


def constants(text):
    """The calls that library/constants.c defines."""
    return c_calls(text, r"\n{")


def header(text):
    """The calls and structs of the header, in its order."""
    text = re.sub(r"/\*.*?\*/", "", text, flags=re.S)
    structs = {camel(name): fields for name, fields in re.findall(r"^struct reamertan_(\w+) \{([^{}]*)\};", text, re.M)}
    return c_calls(text, ";"), {name: [c_pair(part) for part in parts(fields, ";")] for name, fields in structs.items()}


def in_rattle(wanted):
    """The header's calls and structs as Rattle has them, where one type stands for all coders, and one for pointers to them."""
    calls, structs = wanted
    spelled = {f"*mut {camel(name)}": f"*mut {KEPT}" for name in CODERS} | {f"*mut *mut {camel(name)}": f"*mut {SLOT}" for name in CODERS}
    return {
        name: ([(parameter, spelled.get(kind, kind)) for parameter, kind in pairs], result) for name, (pairs, result) in calls.items()
    }, structs


def c_pairs(name, kind):
    """What a parameter in Rattle is in C: a slice is a pointer and a length, whose name is the header's alone."""
    if kind == "Global":
        return []
    found = re.fullmatch(r"&(mut )?(.*)", kind)
    if not found:
        return [(name, kind)]
    pointer, kind = f"*{'mut' if found[1] else 'const'} ", found[2]
    if kind == "[u8; CONFIGURATION_LENGTH]":
        return [(name, f"{pointer}Configuration")]
    if kind.startswith("["):
        return [(name, pointer + kind.strip("[]")), (None, "usize")]
    return [(name, pointer + kind)]


def rust_calls(text, start, spelled):
    """The calls behind these words, in their order."""
    calls = {}
    unread = len(re.findall(start + r"fn \w+", text))
    for name, parameters, result in re.findall(start + r"fn (reamertan_\w+)\(([^()]*)\)(?:\s+-> (\w+))?", text):
        pairs = [part.split(": ", 1) for part in parts(parameters, ",")]
        calls[name] = [pair for name_and_kind in pairs for pair in spelled(*name_and_kind)], result or "()"
        unread -= 1
    if unread:
        raise ValueError(f"of the calls of Rust {unread} can't be read")
    return calls


def rust_structs(text):
    """The structs that have the layout of C, without what is ghost. An array stands for a struct whose fields have no names."""
    structs = {}
    for name, fields in re.findall(r"^#\[repr\(C\)\]\n(?:#\[[^\n]*\n)*(?:pub )?struct (\w+) \{(.*?)^\}", text, re.M | re.S):
        structs[name] = re.findall(r"^    (?:pub )?(\w+): ([\w* ]+),$", fields, re.M)
    for name, kind, count in re.findall(r"^type (\w+) = \[(\w+); (\d+)\];", text, re.M):
        structs[name] = [(None, kind)] * int(count)
    return structs


def exports(texts):
    """The calls and structs of the sources of crates/raptorq_c."""
    text = "\n".join(texts)
    structs = {name: fields for name, fields in rust_structs(text).items() if name not in (KEPT, SLOT)}
    return rust_calls(text, r'pub extern "C" ', c_pairs), structs


def wrapper(text):
    """The calls and structs of wrapper/src/calls.rs."""
    declared = "".join(re.findall(r'^unsafe extern "C" \{(.*?)^\}', text, re.M | re.S))
    return rust_calls(declared, "", lambda name, kind: [(name, kind)]), rust_structs(text)


def equal(first, second):
    """Whether pairs are equal, as far as both have names."""
    return len(first) == len(second) and all(
        kind == other_kind and (None in (name, other_name) or name == other_name) for (name, kind), (other_name, other_kind) in zip(first, second)
    )


def shown(pairs, result=None):
    listed = ", ".join(f"{name or '_'}: {kind}" for name, kind in pairs)
    return f"({listed}) -> {result}" if result else f"({listed})"


def differences(place, found, wanted, is_whole):
    """What differs in the calls and structs of a place from those of the header, of whose calls it may lack some where it isn't whole."""
    (calls, structs), (wanted_calls, wanted_structs) = found, wanted
    for name in sorted(structs.keys() | wanted_structs.keys()):
        if not equal(structs.get(name, []), wanted_structs.get(name, [])):
            yield f"{place}: struct {name} is {shown(structs.get(name, []))}, and in the header {shown(wanted_structs.get(name, []))}"
    for name, (pairs, result) in calls.items():
        if name not in wanted_calls:
            yield f"{place}: {name} isn't in the header"
            continue
        other_pairs, other_result = wanted_calls[name]
        if not equal(pairs, other_pairs) or result != other_result:
            yield f"{place}: {name} is {shown(pairs, result)}, and in the header {shown(other_pairs, other_result)}"
    if is_whole:
        yield from (f"{place}: {name} isn't there" for name in wanted_calls if name not in calls)
    else:
        order = [name for name in wanted_calls if name in calls]
        yield from (f"{place}: {name} stands where the header has {other}" for name, other in zip(calls, order) if name != other)


def in_ctypes(kind, structs):
    """What stands for a type of the header in Python, where these are the structs."""
    known = {**CTYPES, **structs, **{camel(name): None for name in CODERS}}
    if kind.startswith("*mut *mut "):
        return ctypes.POINTER(ctypes.c_void_p)
    pointer = re.fullmatch(r"\*(?:const|mut) (\w+)", kind)
    if not pointer:
        return known[kind]
    if pointer[1] in ("u8", "char", "Configuration"):
        return ctypes.c_char_p
    # A pointer to a coder is never followed, and that to a bool goes as its address.
    return ctypes.c_void_p if known[pointer[1]] in (None, ctypes.c_bool) else ctypes.POINTER(known[pointer[1]])


def module_differences(declared, wanted):
    """What differs in the declarations of Python's module from the header's, of which it may lack some."""
    calls, structs = wanted
    classes = {name: getattr(declared, name) for name in structs if hasattr(declared, name)}
    for name, made in classes.items():
        fields = [(field, in_ctypes(kind, classes)) for field, kind in structs[name]]
        if made._fields_ != fields:
            yield f"python/reamertan/_calls.py: {name} is {made._fields_}, and in the header {fields}"
    for name, found in declared.CALLS.items():
        pairs, result = calls.get(f"reamertan_{name}", ([], None))
        kinds = [in_ctypes(kind, classes) for kind in (result, *(kind for _, kind in pairs))] if result else []
        if list(found) != kinds:
            yield f"python/reamertan/_calls.py: {name} is {found}, and in the header {kinds}"
