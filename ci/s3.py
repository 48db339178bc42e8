"""The boto3 client for links of Signature Version 4, with the box as the first part of the path, as in docs/USE.md; and
requests for its links."""

import functools
import urllib.parse

import boto3
import botocore.config

from samples import HOST


@functools.cache
def client(endpoint, key, secret, region="us-east-1", **settings):
    """A client for the office at this address. It signs links, and sends no requests itself."""
    config = botocore.config.Config(signature_version="s3v4", s3={"addressing_style": "path"}, **settings)
    return boto3.client("s3", region_name=region, endpoint_url=endpoint, aws_access_key_id=key,
                        aws_secret_access_key=secret, config=config)


def target_of(url):
    parts = urllib.parse.urlsplit(url)
    return f"{parts.path}?{parts.query}"


def request(method, target, fields):
    lines = [f"{method} {target} HTTP/1.1", f"Host: {HOST}"]
    lines += [f"{name}: {value}" for name, value in fields.items()]
    return "\r\n".join(lines + ["", ""]).encode()
