"""01: "Strings are UTF-8 (RFC 3629)": the grammar of that paper's section 4, a row each."""
import re

ROWS = (
    rb"[\x00-\x7f]",
    rb"[\xc2-\xdf][\x80-\xbf]",
    rb"\xe0[\xa0-\xbf][\x80-\xbf]",
    rb"[\xe1-\xec][\x80-\xbf]{2}",
    rb"\xed[\x80-\x9f][\x80-\xbf]",
    rb"[\xee-\xef][\x80-\xbf]{2}",
    rb"\xf0[\x90-\xbf][\x80-\xbf]{2}",
    rb"[\xf1-\xf3][\x80-\xbf]{3}",
    rb"\xf4[\x80-\x8f][\x80-\xbf]{2}",
)
OCTETS = re.compile(b"(?:" + b"|".join(ROWS) + b")*", re.DOTALL)


def good(data):
    """02, Job 5: "how many leading bytes form whole characters: the largest such number". No character's octets begin another's, so
    that the characters are found one after the other."""
    return OCTETS.match(data).end()


def is_utf8(data):
    return good(data) == len(data)
