"""In what nginx and Haboob answer otherwise, and why: the departures that against_nginx.py knows.

A departure is a function of the request, nginx's answer and Haboob's (None where there is none). Its first line is the
rule that Haboob goes by, and the function says whether this is such a case: as narrowly as it can, so that nothing else
hides there.
"""
import re
import urllib.parse

import odd_requests
import reference

TOKEN = re.compile(reference.TOKEN)
CAPITALS = re.compile(rb"[A-Z_-]+")
THREE_WORDS = re.compile(rb"[^ ]+ [^ ]+ ([^ ]+)")
CONTROL = re.compile(rb"[\x00-\x08\x0a-\x1f\x7f]")
SCHEME_AND_AUTHORITY = re.compile(rb"[A-Za-z][A-Za-z0-9+.-]*://([^/?#]*)")
AUTHORITY = re.compile(rb"(?:[A-Za-z0-9.-]+|\[[0-9A-Fa-f:.]+\])(?::[0-9]*)?")
UNKNOWN_TYPE = b"application/octet-stream"


def location_of(answer):
    """The path, decoded, and the query that a redirect leads to."""
    path, _, query = answer.fields.get(b"location", b"").partition(b"?")
    return urllib.parse.unquote_to_bytes(path), query


def is_refused(ours):
    """Whether Haboob takes a head for none, and ends the connection."""
    return ours is not None and ours.status == 400 and ours.closes


def is_refused_there(theirs):
    """Whether nginx refuses a request, and ends the connection."""
    return theirs is not None and theirs.status == 400 and theirs.closes


def statuses(theirs, ours):
    """The two statuses, None where there is no answer."""
    return tuple(answer and answer.status for answer in (theirs, ours))


def is_bad(target):
    """Whether a target is 400 (docs/RULES.md, Methods and targets)."""
    path = reference.path_of(target)
    return path is None or reference.walk(segments_of(path)) == 400


def keeps_its_rule(request, ours):
    """Whether Haboob's connection goes on or ends as the request asks, which so is none with a fault of its head."""
    return ours.closes == (reference.link_of(int(request.line[-1:]), request.fields) == b"close")


def segments_of(path):
    """The decoded segments of a path."""
    return [urllib.parse.unquote_to_bytes(segment) for segment in path[1:].split(b"/")]


def path_in(target):
    """The path of a target as it stands there, with its escapes."""
    return SCHEME_AND_AUTHORITY.sub(b"", target).partition(b"#")[0].partition(b"?")[0]


def has_no_version(request):
    """Whether a request line has no version."""
    return len(request.line.split()) < 3


def no_version(request, theirs, ours):
    """A request line has a version (RFC 9112, 3); nginx answers without a head, in HTTP/0.9."""
    return has_no_version(request) and is_refused(ours)


def other_spaces(request, theirs, ours):
    """One space parts the words of a request line (RFC 9112, 3; to take others is a MAY)."""
    return len(request.line.split()) >= 3 and not THREE_WORDS.fullmatch(request.line) and is_refused(ours)


def other_version(request, theirs, ours):
    """A head of another version is 400 (docs/RULES.md, Left out)."""
    found = THREE_WORDS.fullmatch(request.line)
    return bool(found) and found[1] not in (b"HTTP/1.0", b"HTTP/1.1") and is_refused(ours)


def no_field_line(request, theirs, ours):
    """A field line is a token, a colon and a value (RFC 9112, 5)."""
    odd = any(b":" not in line or not TOKEN.fullmatch(line.partition(b":")[0]) for line in request.lines)
    return odd and is_refused(ours)


def control_byte(request, theirs, ours):
    """A value has no control bytes (RFC 9110, 5.5; to keep most of them is a MAY)."""
    return any(CONTROL.search(value) for _, value in request.fields) and is_refused(ours)


def many_fields(request, theirs, ours):
    """A head has at most 64 fields (docs/RULES.md, Framing)."""
    return len(request.lines) > reference.FIELDS_LIMIT and is_refused(ours)


def long_block(request, theirs, ours):
    """A block of more than 8,192 bytes is 400 (docs/RULES.md, Framing)."""
    return len(request.block) > reference.BLOCK_LIMIT and is_refused(ours)


def no_utf8(request, theirs, ours):
    """A target with bytes from 128 on is UTF-8 (docs/DECISIONS.md, Heads)."""
    return not reference.is_utf8(request.target) and is_refused(ours)


def other_empty_lines(request, theirs, ours):
    """Only CR LF and LF are skipped before a request (RFC 9112, 2.2)."""
    end = reference.EMPTY_LINES.match(request.data).end()
    return request.data[end:end + 1] in (b"\r", b" ", b"\0") and is_refused(ours)


def host_byte(request, theirs, ours):
    """A Host value with a byte that no host or port has is 400 (RFC 9112, 3.2)."""
    return any(not reference.HOST.fullmatch(host) for host in request.values(b"host")) and is_refused(ours)


def coding(request, theirs, ours):
    """Any Transfer-Encoding is 501 and closes (docs/RULES.md, Framing and Departures from the RFCs)."""
    return bool(request.values(b"transfer-encoding")) and ours.status == 501 and ours.closes


def long_length(request, theirs, ours):
    """A Content-Length of many digits is a length, so 413 (RFC 9110, 8.6)."""
    lengths = request.values(b"content-length")
    odd = len(lengths) == 1 and lengths[0].isdigit() and int(lengths[0]) >= 2**63
    return odd and statuses(theirs, ours) == (400, 413)


def second_date(request, theirs, ours):
    """A second If-Modified-Since line makes the field not count (docs/RULES.md, Framing)."""
    return len(request.values(b"if-modified-since")) > 1 and is_refused_there(theirs) and not is_refused(ours)


def host_form(request, theirs, ours):
    """A Host value may be empty, and its bytes alone decide (docs/RULES.md, Framing)."""
    hosts = request.values(b"host")
    odd = len(hosts) == 1 and (not hosts[0] or b".." in hosts[0] or hosts[0].startswith(b":"))
    return odd and is_refused_there(theirs) and not is_refused(ours)


def authority_form(request, theirs, ours):
    """The authority of a target isn't looked at (docs/DECISIONS.md, Targets)."""
    found = SCHEME_AND_AUTHORITY.match(request.target)
    odd = found is not None and (b".." in found[1] or not AUTHORITY.fullmatch(found[1]))
    return odd and is_refused_there(theirs) and not is_refused(ours)


def tab_before_value(request, theirs, ours):
    """Tabs before a value are no part of it (RFC 9110, 5.5 and 5.6.3)."""
    pairs = [line.partition(b":")[::2] for line in request.lines]
    odd = any(value.startswith(b"\t") for name, value in pairs if name.lower() in (b"host", b"content-length"))
    return odd and is_refused_there(theirs) and not is_refused(ours)


def method_token(request, theirs, ours):
    """A method is any token, and 501 where it isn't known (RFC 9110, 9.1)."""
    odd = TOKEN.fullmatch(request.method) and not CAPITALS.fullmatch(request.method)
    return bool(odd) and statuses(theirs, ours) == (400, 501)


def unknown_method(request, theirs, ours):
    """A method that isn't known is 501, not 405 (RFC 9110, 9.1)."""
    return bool(CAPITALS.fullmatch(request.method)) and statuses(theirs, ours) == (405, 501)


def method_before_file(request, theirs, ours):
    """The method is looked at before the target (docs/RULES.md, Methods and targets)."""
    return request.method == b"POST" and ours.status == 405 and theirs.status in (301, 403, 404)


def method_before_target(request, theirs, ours):
    """The method comes first, so a bad target counts for GET and HEAD only (docs/RULES.md, Methods and targets)."""
    odd = is_bad(request.target) or b"%00" in request.target or not request.target.startswith(b"/")
    return odd and is_refused_there(theirs) and ours.status in (405, 501) and keeps_its_rule(request, ours)


def bad_target_goes_on(request, theirs, ours):
    """A bad target is no fault of the framing and closes nothing (docs/RULES.md, Framing)."""
    return is_bad(request.target) and is_refused_there(theirs) and ours.status == 400 and not ours.closes


def byte_zero(request, theirs, ours):
    """A segment with byte 0 is 404 (docs/RULES.md, Methods and targets)."""
    return b"%00" in path_in(request.target) and is_refused_there(theirs) and ours.status == 404


def escaped_slash(request, theirs, ours):
    """An escaped slash splits nothing, and no file has one (docs/RULES.md, Methods and targets; RFC 3986, 2.2)."""
    return b"%2f" in path_in(request.target).lower() and ours.status == 404


def fragment(request, theirs, ours):
    """A target has no fragment (RFC 9112, 3.2; RFC 9110, 7.1)."""
    return b"#" in request.target and ours.status == 400 and keeps_its_rule(request, ours)


def other_scheme(request, theirs, ours):
    """Another scheme than http is 400 (docs/RULES.md, Left out)."""
    found = SCHEME_AND_AUTHORITY.match(request.target)
    odd = found is not None and found[0][:7].lower() != b"http://"
    return odd and ours.status == 400 and keeps_its_rule(request, ours)


def no_index(request, theirs, ours):
    """A folder without index.html is 404 (docs/RULES.md, Resolution)."""
    return statuses(theirs, ours) == (403, 404) and segments_of(path_in(request.target))[-1] in (b"", b".", b"..")


def empty_folder(request, theirs, ours):
    """A folder without files is none (docs/RULES.md, Resolution)."""
    return statuses(theirs, ours) == (301, 404) and path_in(request.target) == b"/" + odd_requests.HOLLOW


def index_is_folder(request, theirs, ours):
    """The file index.html is looked for among files (docs/RULES.md, Resolution)."""
    return statuses(theirs, ours) == (301, 404) and theirs.fields[b"location"].endswith(b"/index.html/")


def query_dropped(request, theirs, ours):
    """A redirect drops the query (docs/RULES.md, Readings)."""
    (path, query), (other, none) = location_of(theirs), location_of(ours)
    return path == other and not none and query == request.target.partition(b"?")[2]


def any_representation(request, theirs, ours):
    """If-None-Match only switches off If-Modified-Since (docs/RULES.md, Left out)."""
    return b"*" in request.values(b"if-none-match") and statuses(theirs, ours) == (304, 200)


def other_precondition(request, theirs, ours):
    """There is no other precondition than If-Modified-Since (docs/RULES.md, Left out)."""
    asked = request.values(b"if-match") or request.values(b"if-unmodified-since")
    return bool(asked) and theirs.status == 412 and ours.status in (200, 304)


def no_date(request, theirs, ours):
    """What is no date in one of three formats doesn't count (RFC 9110, 13.1.3 and 5.6.7)."""
    dates = request.values(b"if-modified-since")
    return statuses(theirs, ours) == (304, 200) and len(dates) == 1 and reference.date_seconds(dates[0]) is None


def later_than_date(request, theirs, ours):
    """Last-Modified is never later than Date (RFC 9110, 8.8.2.1)."""
    shown, date = ours.fields[b"last-modified"], ours.fields[b"date"]
    return shown == date and reference.date_seconds(theirs.fields[b"last-modified"]) > reference.date_seconds(date)


def dot_in_front(request, theirs, ours):
    """An extension stands after the last dot, even one that begins the name (docs/FORMATS.md, Replies)."""
    return segments_of(path_in(request.target))[-1].rfind(b".") == 0 and theirs.fields[b"content-type"] == UNKNOWN_TYPE


def connection_options(request, theirs, ours):
    """The options of all Connection lines are one list of whole words (RFC 9110, 7.6.1; RFC 9112, 9.3)."""
    values = [value.lower() for value in request.values(b"connection")]
    seen = [b"close" in value for value in values if b"close" in value or b"keep-alive" in value]
    return bool(seen) and theirs.closes == seen[-1] and keeps_its_rule(request, ours)


def refused_methods(request, theirs, ours):
    """A 405 closes nothing, be the method TRACE or CONNECT (docs/RULES.md, Framing)."""
    return request.method in (b"TRACE", b"CONNECT") and theirs.status == ours.status == 405 and theirs.closes


def unfinished(request, theirs, ours):
    """A message that isn't complete has no reply (docs/RULES.md, Framing); nginx answers before the body has come."""
    return ours is None and not request.is_whole()


def body_to_head(request, theirs, ours):
    """A faulty message is answered with a body, even to HEAD (docs/RULES.md, Departures from the RFCs)."""
    return request.method == b"HEAD" and ours.closes and ours.status in (400, 413, 501)


# The parts in which two answers may differ, and the departures that may say why.
TABLE = {
    "answer status closes": [
        no_version, other_spaces, other_version, no_field_line, control_byte, many_fields, long_block, no_utf8,
        other_empty_lines, host_byte,
    ],
    "answer": [unfinished],
    "status closes": [
        coding, second_date, host_form, authority_form, tab_before_value, method_token, unknown_method,
        method_before_file, method_before_target, byte_zero, escaped_slash, fragment, other_scheme,
    ],
    "status": [long_length, no_index, empty_folder, index_is_folder, any_representation, other_precondition, no_date],
    "closes": [bad_target_goes_on, connection_options, refused_methods],
    "modified": [later_than_date],
    "type": [dot_in_front],
    "location": [query_dropped],
    "unasked": [body_to_head],
}
DEPARTURES = [(frozenset(parts.split()), holds) for parts, departures in TABLE.items() for holds in departures]
