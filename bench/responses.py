"""The requests of bench/serve and bench/beside, and what is right in their responses."""

import base64
import json
import time

from loads import Load, Request

# How many clients send requests while responses are checked, and how many responses or files are looked at.
CLIENTS, SAMPLE = 12, 20

# The material of a key, and an encrypted key with the key that it opens to (SP 800-38A, F.5).
MATERIAL = "2b7e151628aed2a6abf7158809cf4f3c"
IV, SEALED = "0f0e0d0c0b0a09080706050403020100", "874d6191b620e3261bef6864990db6ce"
OPENED = "6bc1bee22e409f96e93d7e117393172a"


def base64url(digits):
    return base64.urlsafe_b64encode(bytes.fromhex(digits)).decode().rstrip("=")


def key_body(name, iv=IV, sealed=SEALED):
    return json.dumps({"name": name, "iv": base64url(iv), "material": base64url(sealed)})


METADATA = Request("GET", "/kms/v1/key/k/_metadata?user.name=a")
INFO = Request("GET", "/nn/v1/info?path=/zone/file&user.name=a")
DECRYPT = Request("POST", "/kms/v1/keyversion/k%400/_eek?eek_op=decrypt&user.name=a", key_body("k"))
GENERATE = Request("GET", "/kms/v1/key/k/_eek?eek_op=generate&num_keys=1&user.name=a")
CREATE_KEY = Request("POST", "/kms/v1/keys?user.name=a", '{"name":"key-{n}","length":128}')


def create_in(directory):
    return Request("POST", f"/nn/v1/create?path={directory}/file-{{n}}&user.name=a")


class Wrong(Exception):
    """A response was wrong."""


def ask(server, request, status):
    """The body of a response, which must have this status."""
    got, body = server.ask(request.method, request.target, request.body, request.connection != "close")
    if got != status:
        raise Wrong(f"{request.method} {request.target}: {got} {body}")
    return body


def post(server, target, body=""):
    return ask(server, Request("POST", target, body), 201 if target.startswith(("/kms/v1/keys?", "/nn/v1/create?")) else 200)


def get(server, target):
    return json.loads(ask(server, Request("GET", target), 200))


def open_key(server, version, iv, sealed):
    """The key, in hexadecimal digits, to which an encrypted one opens."""
    target = f"/kms/v1/keyversion/{version.replace('@', '%40')}/_eek?eek_op=decrypt&user.name=a"
    material = json.loads(post(server, target, key_body(version.split("@")[0], iv, sealed)))["material"]
    return base64.urlsafe_b64decode(material + "==").hex()


def encrypted_key_of(server, path):
    """The version, the initialization vector and the sealed key of a file."""
    answer = get(server, f"/nn/v1/info?path={path}&user.name=a")["answer"]
    return answer.split()[-1].split(":")


def entries_of(server, directory):
    return get(server, f"/nn/v1/list?path={directory}&user.name=a")["answer"].split()[1:]


def key_of(server, path):
    """The key, in hexadecimal digits, to which the encrypted key of a file opens."""
    return open_key(server, *encrypted_key_of(server, path))


def some(items):
    return items[:: max(1, len(items) // SAMPLE)]


def create_k(server):
    post(server, "/kms/v1/keys?user.name=a", json.dumps({"name": "k", "material": base64url(MATERIAL)}))


def create_zone(server):
    """Makes a zone of the key k, with a file."""
    post(server, "/nn/v1/mkdir?path=/zone&user.name=a")
    post(server, "/nn/v1/zone?path=/zone&key=k&user.name=hdfs")
    post(server, "/nn/v1/create?path=/zone/file&user.name=a")


def make_directory(server, name):
    """Makes a directory in the zone, and returns its path."""
    post(server, f"/nn/v1/mkdir?path=/zone/{name}&user.name=a")
    return f"/zone/{name}"


def equal(what, got, wanted):
    if got != wanted:
        raise Wrong(f"{what}: {got} and not {wanted}")


# ---- checks of responses


def check_metadata(server, body):
    wanted = {"cipher": "AES/CTR/NoPadding", "description": "", "length": 128, "name": "k", "versions": 1}
    equal("the metadata", {name: value for name, value in json.loads(body).items() if name != "created"}, wanted)


def check_info(server, body):
    found = json.loads(body)["answer"].split()
    equal("the entry", [found[0], found[2]], ["file", "/zone"])
    equal("the length of a file's key", len(open_key(server, *found[3].split(":"))), 32)


def check_opened(server, body):
    equal("the opened key", json.loads(body), {"material": base64url(OPENED), "name": "EK"})


def check_generated(server, body):
    (made,) = json.loads(body)
    iv, sealed = (base64.urlsafe_b64decode(it + "==").hex() for it in (made["iv"], made["encryptedKeyVersion"]["material"]))
    equal("the length of a generated key", len(open_key(server, made["versionName"], iv, sealed)), 32)


def check_under_load(server, request, check):
    """Checks some responses while other clients send the same requests. No two responses to `generate` may be the same."""
    with Load(server, request, CLIENTS, 1) as load:
        time.sleep(0.2)
        bodies = [ask(server, request, 200) for _ in range(SAMPLE)]
        for body in bodies:
            check(server, body)
        if request == GENERATE:
            equal("the number of different responses", len(set(bodies)), SAMPLE)
        end_load(load)


def check_successes(failed):
    equal("the number of responses that were no success", failed, 0)


def end_load(load, early=False):
    figures, failed = load.end(early)
    check_successes(failed)
    return figures


def check_count(what, count, answered, connections):
    """Checks that all was made that was answered, and else only what may have been sent on these connections at the end."""
    if not answered <= count <= answered + connections:
        raise Wrong(f"{what} are {count}, and {answered} creates were answered")


def check_files(server, directory, answered, connections):
    """Checks how many files a directory has, and that the keys of some of them open."""
    names = entries_of(server, directory)
    check_count(f"the files of {directory}", len(names), answered, connections)
    for name in some(names):
        equal("the length of a file's key", len(key_of(server, f"{directory}/{name}")), 32)


def check_sample(server, paths, opened, number):
    """Checks that the keys of these files are under this version, and open to the same keys as before."""
    for path, before in zip(paths, opened):
        version, iv, sealed = encrypted_key_of(server, path)
        equal("the version of a file's key", version, f"k@{number}")
        equal("the key of a file that was encrypted again", open_key(server, version, iv, sealed), before)


def reencrypt(server, files):
    """Rolls the key of the zone, and has the zone re-encrypted. Returns how many files a second that was."""
    post(server, "/kms/v1/key/k?user.name=a", "{}")
    begin = time.monotonic()
    post(server, "/nn/v1/reencrypt?path=/zone&user.name=hdfs")
    while True:
        status = get(server, "/nn/v1/status?path=/zone&user.name=hdfs")["answer"].split()
        if status[1] == "Completed":
            break
        time.sleep(0.01)
    taken, changed, failed = time.monotonic() - begin, int(status[3]), int(status[4])
    # Files that clients have added since the last time are changed as well.
    if changed < files or failed:
        raise Wrong(f"a re-encryption of {files} files: {' '.join(status)}")
    return changed / taken
