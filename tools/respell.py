#!/usr/bin/env python3
"""Respells the repository's own definitions and lemmas: words in snake case, types and facts in camel case.

usage: python3 tools/respell.py        at the top of a repository that port.py has turned, once

Names of src/, of the library and of goals keep their spelling. It goes by whole names, file by file; a name that a file
takes from the library is left alone there, and a name behind a dot is turned only if it is a field of a record here.
"""

import os
import re

NAMES = """
Accepts-exactly After-it All-but-one All-known All-sound Always-writable Any-order As-many-buy As-many-sell
Ask-moves-no-price At-price Better-in Bid-moves-no-price But-for-cents But-its-cents By-rule Cleared-as Closed-as
Critical-ask Critical-bid Critical-for-asks Critical-for-bids Evenings-accepted Evenings-told Fair-from-messages
File-back File-read-again First-listable First-ranks-suffice First-unknown Fund-never-pays Gets-at-least-ask
Greatest-gain Handed-back Higher-bid-first In-bounds Kept-in-kind Kind-read-again Least-left Left-gain-least
Lower-ask-first Lower-member-first More-may-gain Most-at-one-price Named-right No-loss No-pair No-two-left No-worse
Of-evening Of-row Of-some-row On-sheet One-more Only-the-first Or-none Order-is-free Pairs-first Pays-at-most-bid
Possible-lines Promised-to Ranks-of Read-back Refused-for Relied-on Row-ranged Row-read-again Said-of-row
Taken-when-due Tells-rule Tie-rule True-ask True-asks True-bid True-bids True-evenings True-number True-numbers
Turns-off Unless-memory Unless-refused Within-bounds Wrong-among Wrong-field Wrong-kind above-cut absent-other
accepted-from accepts-exactly accepts-from accepts-letter account-after account-cell account-counts account-exact
account-here account-most account-next account-or account-traded accounts-in accounts-traded after-high after-it
ahead-asym ahead-good ahead-row ahead-tied ahead-trans ahead-untied alike-entered alike-insert alike-other alike-own
alike-row alike-with all-asks all-at all-bids all-but-one-in all-else all-fits all-front all-kept all-members
all-pairs all-through all-traded all-unmap allowed-sound allowed-sum alone-chain alone-for alone-row and-true
answer-fresh answer-past answer-there answers-are answers-other answers-own answers-to apart-from-0 apart-kinds
apart-members apart-set apart-tail around-two as-counted as-many-accounts as-many-berths as-many-buy as-many-sell
ascending-append ascending-drop ascending-kept ascending-placed ascending-prop ascending-take ask-entry ask-is-backed
ask-moves-no-price ask-not-bought ask-over ask-ranged ask-under asks-above asks-for at-buyer at-closing at-if-there
at-its-rank at-member at-numbered at-rank at-rank-most at-seller at-t at-u at-word balance-heavy balance-light
balanced-balanced balanced-double balanced-fork balanced-glued balanced-grown balanced-lifted balanced-prop
balanced-rest balanced-shrunk balanced-single became-keeps before-asym before-digits before-field before-from
before-itself before-keys before-lighter before-low before-lower before-lower-rank before-not-back before-or-back
before-total before-trans behind-good behind-row behind-tied behind-untied below-count below-cut berth-cell berth-here
berths-after berths-exact berths-in berths-next berths-none berths-once berths-there berths-traded berths-traded-here
beside-itself beside-then best-ask best-bid better-ask better-bid better-in better-not-good between-price bid-in
bid-is-counted bid-moves-no-price bid-not-sold bid-or-ask bid-over bid-ranged bid-under bids-are bids-are-covered
bids-before bids-none bids-of bids-of-row bids-same bids-with bit-on book-counts book-depth book-list book-members
book-of book-past book-there booked-as both-accept both-other both-ranged both-sides both-there bought-is bought-there
but-one buyers-bid buyers-in buyers-once buyers-pairs buyers-pay buyers-room buys-with by-bids by-rule byte-none
byte-other byte-same can-stand carried-back case-of cents-at cents-in cents-least cents-most cents-nth cents-numbered
cents-of cents-or-0 chain-if-there chain-tail changed-other changed-same changed-sound changed-twice check-answer
checked-from cleared-as closed-account closed-as closed-berths closed-fund codes-first codes-in codes-ranged
comes-first committed-after committed-kept committed-with count-all count-before count-front count-insert
count-kept-other count-kept-same count-more count-rep count-sum countBy-append countBy-placed counted-as counted-bytes
counting-last counts-before counts-from critical-ask critical-bid critical-in-row critical-price decoded-ask
decoded-bid different-ranks double-in-order due-entry due-if-taken due-is due-most earlier-good earlier-not-back
earlier-or-back earlier-trans either-cond empty-change encode-decode enter-booked enter-parts entered-comm
entered-counts entered-falls entered-length entered-ordered entries-after entries-there entry-bytes entry-is
entry-lines entry-on entry-ranged entry-same entry-sound entry-told err-is-not-ok evenings-told fair-from-messages
falls-from fellows-differ few-each few-fit few-keys few-kinds few-members few-ranked field-bytes field-place
file-answer file-back file-length file-of file-refusal filled-all filled-first filled-join filled-prop filled-take
first-least first-listable first-over first-ranks first-ranks-suffice first-there first-unknown fits-from fits-opened
fits-run follows-accepted follows-from for-ask for-bid for-nothing found-by free-at fresh-not fresh-so from-append
from-case from-drop from-kind from-kind-on from-never from-side from-swap from-w front-known front-sum fund-after
fund-counts fund-exact fund-gets fund-in fund-most fund-never-pays fund-next gain-split getD-emptied getD-row
gets-at-least gets-at-least-ask gets-most gets-with glue-last glue-none glue-parts glue-stands glued-step good-double
good-from-better good-from-double good-or-better good-own good-past-mean good-refl good-same good-trans good-turned
got-most greatest-gain grow-down grow-less grow-none grow-up grown-fork grown-prop half-cents halves-low handed-on
has-berths has-counted has-kind has-money has-none has-occurs has-row head-last here-eq here-other here-same
higher-bid-first how-many how-many-listed how-many-row if-allowed if-there in-a-byte in-all-kinds in-allowed in-cents
in-front in-kind in-one-kind in-order-balanced in-order-glued in-order-grown in-order-lifted in-order-put
in-order-rest in-order-shrunk in-order-take in-out in-own in-range in-rep in-set indexed-after indexed-empty inner-at
insert-cases insert-here insert-later insert-none insert-ordered insert-put inserted-set is-kind is-of is-on is-pair
is-there join-at join-became join-here joined-both joined-nothing joins-below judged-alike judged-ok kept-as
kept-in-kind kept-other kept-prop kept-take key-bound key-new key-next keyed-back keys-left keys-next kind-answer
kind-counts kind-depth kind-err kind-exists kind-fields kind-length kind-lines kind-list kind-members kind-parts
kind-read kind-same kind-sheet kind-slice kind-tells kind-told kind-writable kind-written kinds-done kinds-in
kinds-least kinds-left kinds-most kinds-next kinds-none kinds-there known-after known-all known-before known-code
known-front known-run lacking-after lacks-nothing laid-append laid-three last-ask last-below last-bid last-buyers
last-by last-digit last-facts last-here last-in-range last-is last-no-better last-nth last-pair last-same last-sellers
last-sided last-take later-good leads-all leads-done leads-more leads-none least-left leave-booked leave-one
left-gain-least left-more left-nothing left-of left-some left-to-trade length-after length-bytes2 length-bytes4
length-cents length-codes length-counted length-emptied length-entry length-head length-if-there length-insert
length-kind length-kind-row length-letter length-line length-lines length-listed length-numbered length-numbers
length-pair length-passed-on length-placed length-ranked length-row length-sheet-from length-sheet-of
length-sheet-of-kind length-trade length-traded length-trading length-written less-insert less-le less-shorter
letter-bytes letter-of letter-told letter-written lift-double lift-first lift-inner lift-last lift-outer lift-second
lift-test lift-trio line-bytes line-checked line-end line-follows line-in line-place line-right line-right-from
line-told line-with lines-done lines-follow lines-told list-rest list-this listed-before listed-bytes listed-few
listed-put listed-put-other listed-rank listed-row listed-take listed-there lists-fields lists-fit look-size
loses-nothing low-accounts low-cents low-decoded low-entry low-fund low-ranked low-rises low-row lower-ask-first
lower-at lower-count lower-filled lower-half lower-member-first lows-rise ltb-suc map-back-keys map-back-ranked
map-cond map-count map-inserted map-kept map-nth map-placed map-removed map-set map-without mark-at mark-nothing
mark-opposite mark-this member-exists member-there members-in members-least members-most members-rest message-of
messages-done messages-in messages-more messages-next messages-none middle-at middle-missing middle-take middle-there
mine-is money-kept more-accounts more-berths more-kinds more-lines more-may-gain most-at-one-price most-in-range
most-or-none named-right narrow-keyed never-pays new-here new-listed new-lists new-members new-sound new-there
next-after next-ask next-below-asks next-below-bids next-bid next-by next-in next-in-range next-is next-ltb next-rank
next-same next-serves next-sided no-better no-buyer no-entry no-loss no-loss-by-rank no-loss-of no-loss-with no-pair
no-pair-at no-seller no-two no-two-left no-unknown nobody-at-all nobody-else nobodys-cell none-account none-buy
none-cond none-counted none-else none-is-not-some none-is-some none-on none-rep none-sell none-settled none-short
none-there none-through none-when not-both not-here not-less not-lighter not-meeting not-not not-other not-refused
not-serving not-touched not-traded not-twice nothing-at nothing-bought nothing-is-free nothing-lacks nothing-not
nothing-on nothing-refused nothing-sold nothing-stands nothing-there nth-back nth-before nth-below nth-front nth-more
nth-set-other nth-set-same nth-take number-cases number-is-new number-of-bytes number-or-none numbers-or-none
numbers-small occurs-append occurs-without-other occurs-without-same of-evening of-kind of-pairs of-row-from of-side
of-tail of-twelve ok-1 ok-2 ok-and-then ok-cond ok-short ok-value on-its-side on-new on-no-side on-sheet on-side
on-side-cents one-before one-count one-counted one-if one-if-le one-listed one-more-settled one-pair one-price
one-sort one-stands one-true-number only-key only-pair only-the-first open-answers open-rep opened-sound opening-fits
opposite-twice or-no-room or-none order-after order-is-free order-of order-sound order-within ordered-from
ordered-here ordered-keys other-after-it other-chain other-even other-falls other-in-range other-kinds other-list
other-member other-next other-own other-ranged other-rep other-sorted other-stays others-list others-write out-in
outcome-again outcome-from outcome-is outcome-of outcome-shown outcome-take outer-at outer-of over-at over-here
over-more over-past own-after own-answers own-apart own-cell own-chain own-falls own-good own-in-range own-last
own-list own-m own-moves own-n own-next own-no-worse own-number own-over own-price own-ranged own-rows paid-out
pair-at pair-bytes pair-or-none pair-take pairs-again pairs-are pairs-end-asks pairs-end-bids pairs-few pairs-in
pairs-more pairs-no pairs-no-asks pairs-no-bids pairs-stop pairs-take pairs-within pairs-yes part-is part-place
part-put pass-fields pass-kinds passed-counts passed-le passed-left passed-on-placed passed-right passing-all
passing-more past-accounts past-kind past-none pays-at-most pays-at-most-bid pays-with picked-here picked-left
picked-nth picked-right picked-within picks-member place-counts placed-after placed-back placed-before placed-front
pop-down pop-first-is pop-here pop-last pop-less pop-up possible-after possible-first possible-here possible-lines
price-beside price-in price-is price-is-due price-most price-not-own-with price-of price-of-row price-on price-same
price-served price-told price-unserved promised-to put-at put-change put-falls put-here put-later put-lower put-parts
put-upper ranged-if-there ranged-more ranged-none rank-at rank-before rank-counts rank-is-place rank-one rank-settled
ranked-as ranked-at ranked-back ranked-falls ranked-few ranked-from ranked-in-row ranked-is ranked-listable ranked-low
ranked-none ranked-of ranked-ordered ranked-others ranked-own ranked-part ranked-ranged ranked-set ranks-done ranks-of
read-few read-half read-kind read-parts read-with refused-file refused-with rep-fork rep-keep rep-prop rest-next
rest-step right-line right-some room-in-run room-there room-to-buy root-low root-of root-other root-same root-there
row-bytes row-counted row-entry row-err-cents row-err-member row-fields row-is-set row-length row-none row-of-line
row-set row-with ruling-at run-accounts run-berths run-next runs-differ said-alone said-cleared said-of-row
said-one-price said-two-prices same-cell same-cents same-elsewhere same-fund same-loans same-mark same-order
same-others same-pairs same-position same-price same-price-is same-rising same-sender sellers-ask sellers-get
sellers-in sellers-once sellers-room sells-with serves-from serves-next serves-or-not serving-below serving-from
serving-served serving-turned set-removed settled-one-more settles-alone settles-but-last settles-next settles-of
sheet-from sheet-more sheet-none sheet-of sheet-of-kind sheet-of-more sheet-room short-or short-part should-be
shown-all shrink-down shrink-here shrink-last shrink-less shrink-none shrink-pair shrink-up shrunk-fork shrunk-here
side-bound side-byte side-in side-most side-of side-own side-price side-read side-stands side-tree side-written
sided-of sided-same single-in-order size-at size-balanced size-fork size-glued size-grown size-le size-length size-rep
size-rep-le size-rest size-shrunk size-take slot-rep small-rep sold-there some-cond some-is-not-none some-kinds
some-mark some-members some-rep some-row sort-asked sort-is-known sort-of sorted-alike sorted-kept sorted-placed
sorted-ranked sorted-set sorted-still sorted-up sound-after sound-as sound-from sound-opened sound-put sound-run
sound-take spans-above spans-append spans-back spans-below spans-front spans-here spans-low spans-prop spans-rise
spans-swap split-gain split-gains split-times stand-ranged stands-alone stands-before stands-well step-append step-err
step-none step-there still-closes still-underway sum-add sum-but-one sum-double sum-entered sum-insert sum-le
sum-le-on sum-members sum-most sum-nothing sum-of-price sum-parts sum-ranked sum-same-on sum-swap take-here take-one
take-set-in taken-file taken-if-due taken-when-due takings-most tells-rule test-is then-there there-at there-on
thin-there this-filled through-cond through-kinds through-one-more tie-beside tie-byte tie-holds tie-in tie-is tie-of
tie-read tie-rule tie-same tie-told tie-word tie-written tied-after tied-before times-after times-balanced
times-before times-before-kind times-counting times-fork times-glued times-grown times-here times-insert times-is
times-map times-occurs times-rest times-same times-shrunk times-take-other times-take-same times-there times-traded
to-w told-fields told-from told-kinds told-step told-then total-from total-le total-node total-past total-ranked
trade-bytes trade-in trade-read trade-written traded-at traded-byte traded-cond trades-few trades-in trades-is
trades-on trades-with trades-within trading-by-rank trading-is trading-shown tree-at tree-at-rep tree-of-rep
trio-first trio-last trio-second trio-third true-ask true-asks true-bid true-bids true-evenings true-in-kind
true-number true-number-of true-numbers two-are two-left two-pairs two-prices unkeyed-back unknown-at unknown-front
unknown-next unknown-none unless-refused unless-short unless-unknown untraded-cond up-from-rises up-insert upper-at
upper-below upper-filled upper-half verdict-passes verdict-right way-short where-true with-ask with-bid with-entry
with-entry-at with-entry-off within-bounds within-sheet without-append without-none word2-bytes word2-past word4-bytes
word4-past worth-after worth-back worth-before worth-below worth-is worth-nothing write-answer written-front
written-part wrong-field wrote-counted wrote-head wrote-kind wrote-letter wrote-line wrote-row
"""

FIELDS = """
account-counts all-else as-many-accounts as-many-berths ask-is-backed ask-over ask-under best-ask best-bid
bid-is-counted bid-over bid-under bids-are-covered buyers-bid buyers-once buyers-room by-rule cents-least cents-most
entries-there few-kinds few-members fund-counts gets-at-least has-berths has-money in-a-byte in-kind in-out is-kind
kind-exists kinds-least kinds-most last-ask last-bid low-accounts low-fund member-exists members-least members-most
more-accounts more-berths next-ask next-bid no-loss no-pair not-traded nothing-is-free number-is-new of-twelve
on-sheet open-answers other-chain other-even other-falls other-kinds other-next other-own other-ranged other-rep
other-sorted out-in outcome-again own-after own-chain own-falls own-next own-ranged pairs-again pays-at-most same-fund
sellers-ask sellers-once sellers-room sheet-room should-be some-kinds some-members sort-is-known times-is
true-evenings true-number
"""

# Names that would otherwise fall together with another, or that stand for another word of the library now.
OTHERWISE = {
    "Goes_on": "GoesFurther",
    "Of-row": "IsOfRow",
}

WORD = re.compile(r"[^\s(){}\[\];,.`\"]+")
TAKEN = re.compile(r"^\s*(?:ghost )?use (?:Rattle\.std\.|borrow\.|denote\.|logic\.)[^{\n]*\.\{([^}]*)\}", re.M)


def respelled(name):
    if name in OTHERWISE:
        return OTHERWISE[name]
    if name[0].isupper():
        return "".join(w[:1].upper() + w[1:] for w in name.split("-"))
    return name.replace("getD", "get_or").replace("countBy", "count_by").replace("-", "_")


TURNED = {n: respelled(n) for n in NAMES.split() + list(OTHERWISE)}
IN_RECORDS = set(FIELDS.split())


def turn(text, taken):
    def one(m):
        word = m.group(0)
        if word not in TURNED or word in taken:
            return word
        before = text[m.start() - 1] if m.start() else " "
        if before == "." and word not in IN_RECORDS:
            return word
        return TURNED[word]

    return WORD.sub(one, text)


def taken_in(text):
    return {w.strip().split(" as ")[-1] for m in TAKEN.finditer(text) for w in m.group(1).split(",")}


def antt(text):
    taken = taken_in(text)
    return "\n".join(line if line.lstrip().startswith("--") else turn(line, taken) for line in text.split("\n"))


# In a source file only clauses and imports of clauses are turned: from the word that begins one to its last brace.
BEGINS = re.compile(r"^\s*(ghost use|ghost|requires|ensures)\b")


def rt(text):
    taken = taken_in(text)
    out, depth, inside = [], 0, False
    for line in text.split("\n"):
        if not inside and BEGINS.match(line):
            inside, depth = True, 0
        if inside:
            depth += line.count("{") - line.count("}")
            out.append(turn(line, taken))
            inside = depth > 0
        else:
            out.append(line)
    return "\n".join(out)


def quoted(text):
    return re.sub(r"`[^`\n]+`", lambda m: turn(m.group(0), set()), text)


def edit(text):
    spec = re.search(r"^file: \S+\.antt", text, re.M)
    return antt(text) if spec else rt(re.sub(r"^((?:old|new): )", r"\1\n", text, flags=re.M)).replace(": \n", ": ")


def main():
    for top, turned in (("crates", True), ("docs", False)):
        for folder, dirs, files in os.walk(top):
            dirs[:] = [d for d in dirs if d != "out"]
            for name in files:
                path = os.path.join(folder, name)
                how = {".antt": antt, ".rt": rt, ".edit": edit, ".md": quoted}.get(os.path.splitext(name)[1])
                if how is None:
                    continue
                with open(path, encoding="utf-8") as f:
                    old = f.read()
                new = how(old)
                if new != old:
                    with open(path, "w", encoding="utf-8") as f:
                        f.write(new)


main()
