"""The bytes of a request, over HTTP and as a line of a file."""
import json

from .trouble import Usage

LONGEST = 65_536  # as long as a tracker takes a request


def encoded(value):
    """The bytes of a request, whose length is checked before it is sent."""
    try:
        came = json.dumps(value, ensure_ascii=False, separators=(',', ':')).encode()
    except UnicodeEncodeError:
        raise Usage('what was given is no UTF-8') from None
    if len(came) > LONGEST:
        raise Usage(f'the request has {len(came):,} bytes, and a tracker takes {LONGEST:,}')
    return came
