"""Scripts of events for `sipd replay`: what a phone sends every day, and datagrams whose form is made to cost."""

import hashlib

REALM = "testrealm@host.com"
# the longest datagram, and about the longest message that is taken (its written form may have 49,152 bytes)
LONGEST, TAKEN = 65507, 48900


def md5(text):
    return hashlib.md5(text.encode()).hexdigest()


A1 = md5("Mufasa:" + REALM + ":Circle Of Life")


def request(method, branch, call, number, more="", target="sip:host.com", to="<sip:Mufasa@host.com>"):
    """A request of Mufasa's phone, with lines of its own before Content-Length."""
    return (
        f"{method} {target} SIP/2.0\r\n"
        f"Via: SIP/2.0/UDP 127.0.0.1:5062;branch=z9hG4bK{branch}\r\n"
        "Max-Forwards: 70\r\n"
        "From: <sip:Mufasa@host.com>;tag=a1\r\n"
        f"To: {to}\r\n"
        f"Call-ID: {call}@127.0.0.1\r\n"
        f"CSeq: {number} {method}\r\n"
        f"{more}"
        "Content-Length: 0\r\n\r\n"
    )


def credential(word, uri="sip:host.com", realm=REALM, extra=""):
    nonce = f"{word:032x}"
    answer = md5(f"{A1}:{nonce}:00000001:0a4f113b:auth:" + md5("REGISTER:" + uri))
    return (
        f'Digest username="Mufasa", realm="{realm}", nonce="{nonce}", uri="{uri}", response="{answer}", '
        f'qop=auth, nc=00000001, cnonce="0a4f113b"{extra}'
    )


def event(at, word, data):
    return f"hex {at} 127.0.0.1:5062 {word:032x} {data.encode('latin-1').hex()}\n"


CONTACT = "Contact: <sip:Mufasa@127.0.0.1:5062>\r\n"


def challenges(count, apart):
    """REGISTERs without a credential, each of which is challenged."""
    return "".join(event(1000 + apart * i, 2 * i + 1, request("REGISTER", f"c{i}", "c", i + 1, CONTACT)) for i in range(count))


def pairs(count, apart):
    """REGISTERs that are challenged, each with the one that answers the challenge."""
    lines = []
    for i in range(count):
        at, word = 1000 + apart * i, 2 * i + 1
        lines.append(event(at, word, request("REGISTER", f"a{i}", "c", 2 * i + 1, CONTACT)))
        more = CONTACT + f"Authorization: {credential(word)}\r\n"
        lines.append(event(at + apart // 2, word + 1, request("REGISTER", f"b{i}", "c", 2 * i + 2, more)))
    return "".join(lines)


def filled(make, limit):
    """The datagram that `make` gives with as many repeats as fit into so many bytes."""
    low, high = 0, limit
    while low < high:
        middle = (low + high + 1) // 2
        if len(make(middle)) <= limit:
            low = middle
        else:
            high = middle - 1
    return make(low)


def names(count):
    return "".join(f";p{i:x}" for i in range(count))


def register(more="", contact=CONTACT, **places):
    return request("REGISTER", "x", "x", 1, contact + more, **places)


def many(line, count=240):
    return "".join(line for _ in range(count))


# A name for each form that could cost more than its bytes, and what makes it with n repeats.
SHAPES = {
    "text": lambda n: register(f"Subject: {'a' * n}\r\n"),
    "empty lines in front": lambda n: "\r\n" * n + register(),
    "folds": lambda n: register("Subject: a" + "\r\n a" * n + "\r\n"),
    "empty folds": lambda n: register("Subject: a" + "\r\n " * n + "\r\n"),
    "commas": lambda n: register("Supported: a" + ",a" * n + "\r\n"),
    "lists up to the limit": lambda n: register(many(f"Supported: {'a' * (n // 240)}\r\n")),
    "fields": lambda n: register("a:b\r\n" * n),
    "other names": lambda n: register(many(f"x{'y' * (n // 240)}: z\r\n")),
    "parameters of the Request-URI": lambda n: register(target="sip:host.com" + names(n)),
    "parameters of To's URI": lambda n: register(to=f"<sip:Mufasa@host.com{names(n)}>"),
    "parameters of To": lambda n: register(to=f"<sip:Mufasa@host.com>{names(n)}"),
    "headers of To's URI": lambda n: register(to="<sip:Mufasa@host.com?a=b" + "&a=b" * n + ">"),
    "escapes in To": lambda n: register(to=f"<sip:{'%41' * n}@host.com>"),
    "escapes in the Request-URI": lambda n: register(target=f"sip:{'%41' * n}@host.com"),
    "quoted pairs in To": lambda n: register(to='"' + '\\"' * n + '" <sip:Mufasa@host.com>'),
    "items of Via": lambda n: register("Via: " + ",".join(f"SIP/2.0/UDP a;branch=z{'b' * (n // 240)}" for _ in range(240)) + "\r\n"),
    "parameters of Via": lambda n: register().replace(";branch", names(n) + ";branch"),
    "parameters of a credential": lambda n: register("Authorization: " + credential(1, extra="".join(f", p{i:x}=1" for i in range(n))) + "\r\n"),
    "quoted pairs in a credential": lambda n: register("Authorization: " + credential(1, extra=', p="' + '\\"' * n + '"') + "\r\n"),
    "URI of a credential": lambda n: register("Authorization: " + credential(1, uri="sip:host.com" + names(n)) + "\r\n"),
    "credentials of other realms": lambda n: register(many(f"Authorization: {credential(1, realm='r' * (1 + n // 200))}\r\n", 200)),
    "credentials of this realm": lambda n: register(many(f"Authorization: {credential(1, extra=', p=' + 'r' * (1 + n // 200))}\r\n", 200)),
    "items of Contact": lambda n: register(contact="Contact: " + ",".join(f"<sip:a@b{'c' * (n // 240)}>" for _ in range(240)) + "\r\n"),
    "parameters of Contact": lambda n: register(contact=f"Contact: <sip:Mufasa@127.0.0.1>{names(n)}\r\n"),
    "parameters of Contact's URI": lambda n: register(contact=f"Contact: <sip:Mufasa@127.0.0.1{names(n)}>\r\n"),
    "items of Route": lambda n: register("Route: " + ",".join(f"<sip:a{'b' * (n // 240)};lr>" for _ in range(240)) + "\r\n"),
    "body": lambda n: register().replace("Content-Length: 0", f"Content-Length: {n}") + "b" * n,
    "Call-ID": lambda n: request("REGISTER", "x", "c" * n, 1, CONTACT),
    "branch": lambda n: request("REGISTER", "b" * n, "c", 1, CONTACT),
    "digits of CSeq": lambda n: register().replace("CSeq: 1", "CSeq: " + "0" * n + "1"),
}
