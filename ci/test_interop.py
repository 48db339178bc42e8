"""Compares the proved programs with boto3 and its botocore.

`drop` answers presigned requests made by boto3: right ones with many names, regions, windows, further parameters and signed
headers, and wrong ones; and some from a clock that runs ahead, to an office with an allowance. Then the program of crates/rows
writes links for many orders (ci/orders.py), and each must be botocore's own for the same request at the same moment. The times
and the random names are fixed, so each run makes the same cases.
"""

import random

import boto3
import botocore
import pytest

import kit
import orders
import s3
from expected import MOMENT, answer
from program import DONE, IN_MEMORY, answered, difference
from s3 import request, target_of
from samples import HOST, KEY_ID, NAMES, REGIONS, SECRET, random_text

pytestmark = pytest.mark.usefixtures("stopped_clock")
# The expected refusals of an office without boxes.
FOUND_NO_BOX = 27
NEEDS_LENGTH = 25
WRONG_SIGNATURE = 21


def client(region):
    link_to = (f"http://{HOST}", KEY_ID, SECRET, region)
    try:
        return s3.client(*link_to, request_checksum_calculation="when_required")
    except TypeError:  # an older botocore, which computes no checksum by itself
        return s3.client(*link_to)


def with_another_digit(target):
    last = "0" if target[-1] != "0" else "1"
    return target[:-1] + last


def links(source):
    """Each link: its method, its target, the fields to send, and the expected refusal."""
    names = NAMES + [random_text(source) for _ in range(40)]
    clients = [client(region) for region in REGIONS]
    for number, name in enumerate(names):
        s3 = clients[number % len(clients)]
        place = {"Bucket": "in", "Key": name}
        expires = source.choice([1, 60, 86400, 604800])

        def link(call, more=None):
            return target_of(s3.generate_presigned_url(call, Params={**place, **(more or {})}, ExpiresIn=expires))

        yield "GET", link("get_object"), {}, FOUND_NO_BOX
        yield "HEAD", link("head_object"), {}, FOUND_NO_BOX
        yield "PUT", link("put_object"), {}, NEEDS_LENGTH
        shown = {"ResponseContentType": "text/plain; charset=utf-8", "ResponseCacheControl": name}
        yield "GET", link("get_object", shown), {}, FOUND_NO_BOX
        note = {"Metadata": {"note": f"number {number}"}}
        yield "PUT", link("put_object", note), {"X-Amz-Meta-Note": f"\tnumber {number} "}, NEEDS_LENGTH
        yield "GET", with_another_digit(link("get_object")), {}, WRONG_SIGNATURE


def test_links(drop, check):
    """Has the program answer each link."""
    cases = list(links(random.Random(20130524)))

    def replayed(case):
        number, (method, target, fields, _) = case
        stream = drop.path(str(number))
        stream.write_bytes(request(method, target, fields))
        return drop.run("replay", IN_MEMORY, stream, "--at", MOMENT)

    for (method, target, _, number), found in zip(cases, kit.side_by_side(replayed, enumerate(cases))):
        check(f"{method} {target}", difference(found, answered(answer(number, method))))
    print(f"{len(cases)} links of boto3 {boto3.__version__} answered")


# The refusals of a one-minute link that boto3 makes at 20130524T000000Z, by the office's allowance and its clock.
AHEAD = {
    900: [("20130523T234459Z", 22), ("20130523T234500Z", 27), ("20130524T000059Z", 27), ("20130524T000100Z", 23)],
    60: [("20130523T235859Z", 22), ("20130523T235900Z", 27), ("20130524T000059Z", 27), ("20130524T000100Z", 23)],
    0: [("20130523T235959Z", 22), ("20130524T000000Z", 27), ("20130524T000059Z", 27), ("20130524T000100Z", 23)],
}


def test_ahead(drop, check):
    """Has the program answer links whose clock runs ahead of the office's."""
    s3 = client(REGIONS[0])
    place = {"Bucket": "in", "Key": NAMES[1]}
    for allowance, rows in AHEAD.items():
        office, stream = drop.path(f"allows-{allowance}"), drop.path("ahead")
        made = drop.init(office, "--allowance", str(allowance))
        check(f"an allowance of {allowance}", difference(made, DONE))
        for method, call in [("GET", "get_object"), ("HEAD", "head_object"), ("PUT", "put_object")]:
            target = target_of(s3.generate_presigned_url(call, Params=place, ExpiresIn=60))
            stream.write_bytes(request(method, target, {"Content-Length": "0"} if method == "PUT" else {}))
            for at, number in rows:
                found = drop.run("replay", office, stream, "--at", at)
                check(f"{method} at {at}, allowance {allowance}", difference(found, answered(answer(number, method))))


def test_orders(check):
    """Has the program of crates/rows write a link for each order."""
    cases = list(orders.orders(random.Random(20130524)))
    found = kit.run([kit.built("rows")], "".join(f"{it.row()}\n" for it in cases).encode())
    lines = found.out.decode().splitlines()
    if found.status or len(lines) != len(cases):
        check("the orders", f"{len(lines)} lines for {len(cases)} orders, {found.status}, {found.err}")
        return
    for case, line in zip(cases, lines):
        check(case.row(), difference(line, case.answer()))
    print(f"{len(cases)} links as those of botocore {botocore.__version__}")


