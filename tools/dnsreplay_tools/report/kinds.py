"""What became of a query, in words: by what it was answered from the cache, or why it was missed."""
from ..frames import REFUSALS
from ..wire import IN, NSEC, NSEC3, OPT, RRSIG
from .answers import CNAME, DNAME, labels_of

NAME_ERROR, NO_DATA, SET, WILDCARD = "name error", "no data", "set", "wildcard"
ALIAS, REDIRECTION, TRUNCATED = "alias", "redirection", "truncated"
ANSWERED = NAME_ERROR, NO_DATA, SET, WILDCARD, ALIAS, REDIRECTION, TRUNCATED
ALWAYS = "a type or class that is always asked"
UNSIGNED, WITHOUT_DO = "unsigned", "asked without DO, so no signatures came"
OPT_OUT, EXPIRED, OTHER_TYPE = "Opt-Out", "expired", "only another type of the name was held"
NOT_YET, UNKNOWN, UNANSWERED = "no proof held yet", "not known", "not known: no answer in the capture"
NOT_AUTHENTIC, NOTHING = 4, 5  # codes of refused answers
REFUSED = {code: f"refused: {text}" for code, text in REFUSALS.items()}
MISSED = NOT_YET, EXPIRED, OTHER_TYPE, OPT_OUT, UNSIGNED, WITHOUT_DO, *REFUSED.values(), ALWAYS, UNANSWERED, UNKNOWN
TOLD = "a fault of the query, told"
NX = 3  # the RCODE of a name error

def is_always_asked(rtype, rclass):
    """docs/rules/held_records_and_proofs.md, "What is forwarded"."""
    return rclass != IN or rtype in (0, OPT, RRSIG, NSEC, NSEC3) or 128 <= rtype <= 255

def kind_of(reply, records, name, rtype):
    """By what a reply from the cache, to a query with DO, answers; a truncated one has no records to tell it."""
    rcode, count = reply[3] & 15, reply[6] << 8 | reply[7]
    if any(each.rtype == DNAME and each.owner != name for each in records): return REDIRECTION
    if rtype != CNAME and any(each.rtype == CNAME for each in records): return ALIAS
    if rcode == NX: return NAME_ERROR
    if reply[2] & 2: return TRUNCATED
    if not count: return NO_DATA
    signature = next((each for each in records if each.rtype == RRSIG and each.section == 0), None)
    own = labels_of(name)
    count = len(own) - (own[:1] == [b"*"])
    return WILDCARD if signature and reply[signature.start + 3] < count else SET

def why_missed(asked, code, answer, was_held):
    """Of a query that was forwarded, by its answer in the capture, and the code of a refused one, or 0."""
    if asked.is_always: return ALWAYS
    if code is None: return UNANSWERED
    if code == 0: return why_stored(asked, answer, was_held)
    if code not in (NOT_AUTHENTIC, NOTHING): return REFUSED.get(code, UNKNOWN)
    if answer.has_opt_out: return OPT_OUT
    if not asked.wants_signatures: return WITHOUT_DO
    return REFUSED[code] if answer.has_signatures else UNSIGNED

def why_stored(asked, answer, was_held):
    """Why what could be stored wasn't held; `was_held` is None where a part of it came for the first time."""
    if answer.rcode == NX and answer.has_opt_out: return OPT_OUT
    if was_held: return EXPIRED
    if asked.has_other_type: return OTHER_TYPE
    return NOT_YET if was_held is None else UNKNOWN
