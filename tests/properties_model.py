"""The text of `kms-acls.properties` as docs/acls.md has it: what it is refused for, and the verdicts of its lists."""

import re

LONGEST = 1_048_576
SERVICE = ["CREATE", "DELETE", "ROLLOVER", "GET", "GET_KEYS", "GET_METADATA", "SET_KEY_MATERIAL", "GENERATE_EEK", "DECRYPT_EEK"]
ON_KEYS = ["MANAGEMENT", "GENERATE_EEK", "DECRYPT_EEK", "READ"]
SIZES = {b"hkms.queue.size": 10_000, b"hkms.queue.watermark": 10_000, b"hkms.reencrypt.batch": 1_000, b"hkms.cache": 65_535}

_service, _on_keys = ("|".join(it).encode() for it in (SERVICE, ON_KEYS))
LISTS = re.compile(
    rb"hadoop\.kms\.(?:acl|blacklist)\.(?:" + _service + rb")|key\.acl\.[A-Za-z0-9._-]{1,64}\.(?:" + _on_keys + rb"|ALL)"
    rb"|(?:default|whitelist)\.key\.acl\.(?:" + _on_keys + rb")"
)
GROUP = re.compile(rb"group\.([^ ,]{1,255})", re.DOTALL)

# Which operations a call asks for: of the service, and on the key.
CALLS = {
    "create": (["CREATE"], "MANAGEMENT"),
    "create with material": (["CREATE", "SET_KEY_MATERIAL"], "MANAGEMENT"),
    "roll": (["ROLLOVER"], "MANAGEMENT"),
    "roll with material": (["ROLLOVER", "SET_KEY_MATERIAL"], "MANAGEMENT"),
    "delete": (["DELETE"], "MANAGEMENT"),
    "invalidate": (["ROLLOVER"], "MANAGEMENT"),
    "metadata": (["GET_METADATA"], "READ"),
    "names": (["GET_KEYS"], None),
    "current": (["GET"], "READ"),
    "versions": (["GET"], "READ"),
    "generate": (["GENERATE_EEK"], "GENERATE_EEK"),
    "decrypt": (["DECRYPT_EEK"], "DECRYPT_EEK"),
}


def lines_of(text):
    """The lines of a text without their ends. What follows the last LF is a line if it has a byte."""
    *ended, rest = text.split(b"\n")
    return [it.removesuffix(b"\r") for it in ended] + ([rest] if rest else [])


def is_utf8(text):
    try:
        text.decode()
    except UnicodeDecodeError:
        return False
    return True


def is_known(name):
    return name in SIZES or LISTS.fullmatch(name) is not None or GROUP.fullmatch(name) is not None


def are_names(text):
    """Whether a part of a list is names between commas, or nothing."""
    return text == b"" or all(1 <= len(it) <= 255 and is_utf8(it) for it in text.split(b","))


def is_value(name, value):
    if name in SIZES:
        return re.fullmatch(rb"[1-9][0-9]{0,5}", value) is not None and int(value) <= SIZES[name]
    if GROUP.fullmatch(name) is not None:
        return is_utf8(name) and b" " not in value and are_names(value)
    users, _, groups = value.partition(b" ")
    return b" " not in groups and are_names(users) and are_names(groups)


def read(text):
    """The lines of a text as a map, and the last line of a program that refuses it, or None."""
    if len(text) > LONGEST:
        return {}, "acl too long"
    found = {}
    for number, line in enumerate(lines_of(text), 1):
        if line == b"" or line.startswith(b"#"):
            continue
        name, is_pair, value = line.partition(b"=")
        if not is_pair:
            return {}, f"acl line {number} refused"
        if not is_known(name):
            return {}, f"acl line {number} unknown"
        if name in found:
            return {}, f"acl line {number} repeated"
        if not is_value(name, value):
            return {}, f"acl line {number} refused"
        found[name] = value
    return found, None


def is_in(lists, user, name):
    """Whether a user is in the list of this name."""
    value = lists[name]
    users, _, groups = value.partition(b" ")
    members = [lists.get(b"group." + it, b"").split(b",") for it in groups.split(b",") if it]
    return value == b"*" or user != b"" and any(user in it for it in [users.split(b",")] + members)


def service_denial(lists, user, operation):
    allow, deny = f"hadoop.kms.acl.{operation}".encode(), f"hadoop.kms.blacklist.{operation}".encode()
    if allow in lists and not is_in(lists, user, allow):
        return f"ServiceAcl {operation}"
    if deny in lists and is_in(lists, user, deny):
        return f"ServiceBlacklist {operation}"
    return None


def key_denial(lists, user, operation, key):
    white, default = f"whitelist.key.acl.{operation}".encode(), f"default.key.acl.{operation}".encode()
    own = [f"key.acl.{key}.{it}".encode() for it in [operation, "ALL"]]
    if white in lists and is_in(lists, user, white):
        return None
    if any(re.fullmatch(rb"key\.acl\." + re.escape(key.encode()) + rb"\.[A-Z_]+", it) for it in lists):
        return None if any(it in lists and is_in(lists, user, it) for it in own) else f"KeyAcl {operation}"
    if default in lists:
        return None if is_in(lists, user, default) else f"DefaultAcl {operation}"
    return f"NoAcl {operation}"


def denial(lists, user, call, key):
    """Why a call is denied, or None."""
    of_service, on_key = CALLS[call]
    for operation in of_service:
        if why := service_denial(lists, user, operation):
            return why
    return key_denial(lists, user, on_key, key) if on_key else None


def shows_material(lists, user):
    return service_denial(lists, user, "GET") is None
