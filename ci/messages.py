"""Requests as bytes: the published one, and those for links that Python signs."""

from expected import ID, MOMENT, PUBLISHED, SECRET, as_bytes, canonical_request, quoted, signature

HOST = b"Host: examplebucket.s3.amazonaws.com"
LENGTH = b"\r\nContent-Length: "
REQUEST = b"GET " + PUBLISHED + b" HTTP/1.1\r\n" + HOST + b"\r\n\r\n"
SIX = b"X-Amz-Credential=%s&X-Amz-Date=%s&X-Amz-Expires=%s&X-Amz-SignedHeaders=%s&X-Amz-Signature=%s"
# An upload that ends within its body.
CUT_UPLOAD = b"PUT /in/x HTTP/1.1\r\nHost: a" + LENGTH + b"3\r\n\r\nab"


def changed(part, by):
    """The published request with the first such part replaced."""
    assert part in REQUEST, part
    return REQUEST.replace(part, by, 1)


def signed(method, path, more=b"", *, names=b"host", fields=((b"host", b"files.example"),), unsigned=(),
           key=(ID, SECRET), date=MOMENT, region="us-east-1", expires=86400):
    """A request for a link that Python signs. The path and the further parameters are raw texts."""
    credential = f"{key[0]}/{date[:8]}/{region}/s3/aws4_request"
    six = SIX % tuple(map(as_bytes, (credential, date, str(expires), names, "")))
    target = path + b"?X-Amz-Algorithm=AWS4-HMAC-SHA256&" + six.removesuffix(b"&X-Amz-Signature=") + more
    text = canonical_request(method, target, names.replace(b"%3b", b";"), fields)
    target += b"&X-Amz-Signature=" + signature(key[1], credential, date, text).encode()
    lines = [b"%s %s HTTP/1.1" % (as_bytes(method), target)]
    return b"\r\n".join([*lines, *(b"%s: %s" % field for field in (*fields, *unsigned)), b"", b""])


def put(path, data, **how):
    return signed("PUT", path, unsigned=[(b"Content-Length", b"%d" % len(data))], expires=604800, **how) + data


def get(path, method="GET", **how):
    return signed(method, path, expires=604800, **how)


def post(line, path=b"/", **how):
    """A desk command as a signed request."""
    return signed("POST", path, b"&desk=" + quoted(line), **how)


def sent(url, method, data=None):
    """The request for a link of http://files.example."""
    host, _, target = url.removeprefix(b"http://").partition(b"/")
    length = b"" if data is None else b"Content-Length: %d\r\n" % len(data)
    return b"%s /%s HTTP/1.1\r\nHost: %s\r\n%s\r\n" % (method.encode(), target, host, length) + (data or b"")
