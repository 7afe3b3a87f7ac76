"""Which answers are kept, and the trial that counts how queries use them."""
import itertools

from answers import hits, pairs
from documents import collection_of, corpus_of, norm
from index_files import TARGET, blocks_of
from queries import keys_of, query_of

KEPT, KEPT_SIZE = 256, 65_536     # answers that are kept, and the greatest of them

# ---- Kept answers ----
SAME, NARROW, EXTEND, FRESH = "same", "narrow", "extend", "fresh"


def fits(corpus, query):
    """Whether the entry of a query may be kept: its pairs, and the hits without its last part where that isn't excluded."""
    base = query if query and query[-1].excluded else query[:-1]
    return len(pairs(corpus, query)) + (len(hits(corpus, base)) if base else 0) <= KEPT_SIZE


def plan_of(kept, keys):
    """How a query is answered from the keys that are kept, and the key of the answer that it uses."""
    plans = [(SAME, keys.same), *((NARROW, key) for key in keys.narrow), (EXTEND, keys.extend)]
    return next(((plan, key) for plan, key in plans if key in kept), (FRESH, None))


def keys_after(kept, keys, used, keeps):
    """The keys that are kept afterwards, the last used first."""
    kept = [key for key in kept if key == used] + [key for key in kept if key != used]
    return ([keys.same] + kept)[:KEPT] if keeps and used != keys.same else kept


# ---- Trial ----
SYLLABLES = "ba be bi bo da de di do ka ke ki ko ta te ti to".split()
SPELLED = ["".join(syllables) for syllables in itertools.product(SYLLABLES, repeat=3)]
TRIAL_DOCUMENTS, SESSIONS, LETTERS = 100, 20, 6


def draws_of(seed):
    """A function that draws the next number below a bound."""
    def below(bound):
        nonlocal seed
        seed = (seed * 6364136223846793005 + 1442695040888963407) % 2**64
        return (seed >> 33) % bound
    return below


def trial_lines(below, size):
    """The lines of a trial's collection: title words, a syllable, text words."""
    for _ in range(TRIAL_DOCUMENTS * size):
        title = [SPELLED[below(len(SPELLED))] for _ in range(3)]
        kind = SYLLABLES[below(len(SYLLABLES))]
        yield title, kind, [SPELLED[below(len(SPELLED))] for _ in range(12)]


def trial_queries(below, texts):
    """The sessions: two neighbouring words of a text, typed letter by letter, and the first again."""
    for _ in range(SESSIONS):
        text, place = texts[below(len(texts))], below(12)
        first, second = text[place], text[(place + 1) % 12]
        yield from (first[:letters] for letters in range(1, LETTERS + 1))
        yield from (f"{first} {second[:letters]}" for letters in range(1, LETTERS + 1))
        yield first


def trial(size, put):
    """Makes collection and sessions, asks them over one list of kept answers, and puts what came of it."""
    below = draws_of(size)
    lines = list(trial_lines(below, size))
    data = "".join(f"{' '.join(title)}\tkind={kind}\t{' '.join(text)}\n" for title, kind, text in lines).encode()
    corpus = corpus_of(collection_of(data))
    kept, found, plans = [], 0, []
    for text in trial_queries(below, [text for _, _, text in lines]):
        query = query_of(norm(text))
        keys = keys_of(query)
        plan, used = plan_of(kept, keys)
        kept = keys_after(kept, keys, used, fits(corpus, query))
        plans.append(plan)
        found += len(hits(corpus, query))
    counts = {"documents": len(corpus.titles), "rows": len(corpus.rows), "blocks": len(blocks_of(corpus, TARGET)),
              "replies": len(plans), "hits": found, **{plan: plans.count(plan) for plan in (SAME, NARROW, EXTEND, FRESH)}}
    put("".join(f"{name} {number}\n" for name, number in counts.items()).encode())
