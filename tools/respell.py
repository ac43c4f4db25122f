#!/usr/bin/env python3
"""Respells this repository's own definitions and lemmas: words in snake case, types in camel case, a dash only between two names.

usage: python3 tools/respell.py [FOLDER]     once, right after port.py, at the top of the repository (or in FOLDER)

It goes over specs/, proofs/ and src/ of every crate. Names of src/ and names that the check makes (goals, steps) are left as they are.
"""

import os
import re
import sys

# types, and facts that are spelled as types
TYPES = """As-without Between-ids Can-hold Every-pair File-laws Gives-lines Live-same Rest-within Same-or-mirrored Series-keep"""

# definitions and lemmas that become one word, with _ for each dash
WORDS = """
added-by added-cases added-series accepted-refused add-edge add-node after-edges after-nodes answered-refused answering-all answering-more
answering-none applied-refused as-without both-live by-graph by-letter canonical-is carried-is carried-there cases-option cell-blanked cell-front
cell-grown cell-inner cell-isolated cell-parted cell-put cells-alike cells-used cleared-series comma-bad command-comma command-none command-of
command-one command-other cond-or counted-below counted-le counted-live counted-lives counted-more edge-after ended-piece ending-by emptied-above
emptied-below emptied-inside equal-cells every-pair extend-short extended-from fields-comma fields-of fields-plain fields-some file-laws given-ended
gives-lines good-after good-handed good-made good-removed good-same good-take got-live grown-below has-cell has-rows holds-brought holds-deed
holds-emptied holds-enough holds-erased holds-front holds-grown holds-handed holds-made holds-new holds-steps holds-taken holds-top holds-vacated
holds-wrote id-at id-deeds ids-of ids-series if-accepted if-found if-handed inner-alike is-zero isolated-below isolated-more joins-all joins-by
joins-more joins-none joins-over kept-added kept-entering kept-growing kept-lower kept-peak kept-removed kept-replaced kept-replacing
kept-replacing-by kept-taken kept-tried kept-updated kept-vacated kept-writing kind-and-lines kind-by kind-of k-below laid-at laid-full laid-past
laid-within last-reads lifted-above lifted-below lifted-empty lifted-inside limited-from limited-to live-first live-none live-parts longer-some
low-next made-series more-below moved-is moves-by moves-is named-deeds negative-is next-line next-state next-text no-others node-line node-text
not-smaller number-field numeral-is numeral-signed obeyed-refused on-edges on-ids on-nodes onward-moved opened-at opened-by opened-last opened-later
opened-none order-moved outer-alike output-of own-inner own-outer parted-all parted-run pieces-ended pieces-joined pieces-only pieces-rest
place-below place-shares places-used plain-before plain-rest populated-done populated-full populated-go populated-on populated-stop put-above
put-below put-inside raised-above raised-inside raised-length reached-at reading-end reading-more reading-stop reads-place remove-edge remove-node
removed-cases removed-of removed-series replace-edge replace-node replaced-ids replaced-of replacing-by replies-next rest-within room-cases room-few
room-parts rows-rise same-cell seat-below seats-alike seats-moved series-accepted series-found series-keep shares-at shares-joins shares-own
shares-pairs shares-place some-cut some-none sound-lower sound-parts sound-push sound-taken sound-vacated stacked-set stacked-top start-next
starts-at steps-series table-set taken-new taken-top tally-limit try-edge turned-lower turned-new turned-off turned-push turned-top turned-vacated
unless-empty update-edge vacancies-added vacancies-taken vacated-deed vacated-lower vacated-push weights-more when-some with-added with-capacity
with-ids with-line with-matrix with-removed with-tally within-given within-last within-no-line without-ids wrote-then-none at-z before-end
"""

# lemmas whose name is the left side of their equation: the outer call, a dash, and what it is of
SIDES = """
after-append answers-append drop-grown held-set-other held-set-same joined-map laid-append laid-copy laid-sets length-blanked length-comma
length-emptied length-grown length-grown-below length-isolated length-laid length-lifted length-longer length-parted length-plain length-printed
length-put length-raised length-set-at length-sound length-stacked length-step map-cond wrote-append
"""

OTHERS = {
    "getD-grown-above": "get_or-grown_above",
    "getD-grown-below": "get_or-grown_below",
}

NAME = r"[^\s(){}\[\];,.:\"«»]"


def mapping():
    to = dict(OTHERS)
    for n in TYPES.split():
        to[n] = "".join(p[0].upper() + p[1:] for p in n.split("-"))
    for n in WORDS.split():
        to[n] = n.replace("-", "_")
    for n in SIDES.split():
        outer, of = n.split("-", 1)
        to[n] = outer + "-" + of.replace("-", "_")
    return {a: b for a, b in to.items() if a != b}


def files(root):
    for folder, dirs, names in os.walk(os.path.join(root, "crates")):
        dirs[:] = sorted(d for d in dirs if d not in ("out", "must-fail"))
        for n in sorted(names):
            if n.endswith((".rt", ".antt")):
                yield os.path.join(folder, n)


def main(root):
    to = mapping()
    words = re.compile("(?<!" + NAME + ")(" + "|".join(re.escape(n) for n in sorted(to, key=len, reverse=True)) + ")(?!" + NAME + ")")
    changed = 0
    for path in files(root):
        with open(path, encoding="utf-8") as f:
            old = f.read()
        new = words.sub(lambda m: to[m.group(1)], old)
        for a, b in to.items():
            if new != old and re.search("(?<!" + NAME + ")" + re.escape(b) + "(?!" + NAME + ")", old) and re.search("(?<!" + NAME + ")" + re.escape(a) + "(?!" + NAME + ")", old):
                print(f"look: {path}: both {a} and {b}")
        if new != old:
            changed += 1
            with open(path, "w", encoding="utf-8") as f:
                f.write(new)
    print(f"respell: {changed} files")


if __name__ == "__main__":
    main(sys.argv[1] if len(sys.argv) > 1 else ".")
