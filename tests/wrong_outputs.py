"""Right outputs of tests/c/requests.c, and wrong ones that must be reported: listings, walks, lists and every call."""

from lists_by_hand import LISTS
from make_listings import Made
from named_cases import FIRST, HEAD, ZERO_CLAIM
from pair_cases import T_OF_004
from second.calls import every_line
from second.listing import right_text
from second.sheet import Claim, Sheet, Transition, write
from verdicts_by_hand import LISTING_OF_01
from walks_by_hand import FULL, WALKS

# The second transition is 01's case j, which has many bad markings; the first moves nothing.
CASE_J = write(
    Sheet(
        n=2,
        T=2,
        transitions=(Transition((1, 0), (1, 0)), T_OF_004),
        start=(2, 1),
        kind=0,
        target=(0, 1),
        claims=(Claim((2, -3), 0), Claim((4, -6), 0)),
    )
)
LISTED = [Made("by hand", data) for data in [FIRST, HEAD, ZERO_CLAIM, CASE_J]]
LISTED_FINE = "listing: number 0 at 0, text 4096 written, marks 20000 zero, queue 20000 zero\n"
LISTING_OF_J = f"{LISTED_FINE}places 2 transitions 2 claims 2\nclaim 1 broken 2 2 1\nclaim 2 broken 2 3 2 twin 1\n.\n"
LISTING_REFUSED = "listing: number 9 at 23, text 4096 kept, marks 20000 kept, queue 20000 kept\n"
REFUSAL_TEXT = "refusal_text: number 0 at 0, text 4096 written\nrefused 9 at 23\n"
LISTING_OF_ZERO = f"{LISTING_REFUSED}{REFUSAL_TEXT}".replace("9 at 23", "18 at 29") + ".\n"
RIGHT_LISTINGS = f"{LISTED_FINE}{LISTING_OF_01}.\n{LISTING_REFUSED}{REFUSAL_TEXT}.\n{LISTING_OF_ZERO}{LISTING_OF_J}"

# What 01 alone would list where 02 refuses.
ZERO_JUDGED = f"{LISTED_FINE}{LISTING_OF_01}.\n".replace("claim 2 start-outside", "claim 2 target-inside")

CLAIM_1, CLAIM_2 = "claim 1 proof\n", "claim 2 start-outside\n"

OTHER_RIGHT_TOKENS = ["3 2", "20000 13333"]  # for claim 1 of case j

# What is wrong, the sheet that it is wrong for, the right words and the wrong ones.
WRONG_LISTINGS = [
    ("a count", FIRST, "claims 5\n", "claims 4\n"),
    # Its target is inside too, so this is the order of the verdicts.
    ("target-inside before start-outside", FIRST, "claim 2 start-outside", "claim 2 target-inside"),
    ("proof for target-inside", FIRST, "claim 3 target-inside", "claim 3 proof"),
    ("broken for proof", FIRST, "claim 1 proof", "claim 1 broken 1 2 0"),
    ("proof for broken", FIRST, "claim 4 broken 1 1 0", "claim 4 proof"),
    ("a claim's number", FIRST, "claim 3", "claim 4"),
    ("two lines exchanged", FIRST, f"{CLAIM_1}{CLAIM_2}", f"{CLAIM_2}{CLAIM_1}"),
    ("a missing twin", FIRST, "proof twin 1", "proof"),
    ("a twin too many", FIRST, "broken 1 1 0", "broken 1 1 0 twin 1"),
    ("another twin", FIRST, "proof twin 1", "proof twin 4"),
    ("a missing claim", FIRST, "claim 5 proof twin 1\n", ""),
    ("a claim too many", FIRST, "claim 5 proof twin 1\n", "claim 5 proof twin 1\nclaim 6 proof\n"),
    ("a space at a line's end", FIRST, "claim 1 proof\n", "claim 1 proof \n"),
    ("another line's end", FIRST, "claim 1 proof\n", "claim 1 proof\r\n"),
    ("a missing newline", FIRST, "claim 1 proof\n", "claim 1 proof "),
    ("an empty line", FIRST, "claim 1 proof\n", "claim 1 proof\n\n"),
    ("a capital", FIRST, "claim 1 proof", "Claim 1 proof"),
    ("areas that a listing doesn't clear", FIRST, LISTED_FINE, LISTED_FINE.replace("zero", "kept")),
    ("a text of another length than was said", FIRST, LISTED_FINE, LISTED_FINE.replace("written", "dirty")),
    ("areas that a refused listing clears", HEAD, LISTING_REFUSED, LISTING_REFUSED.replace("20000 kept", "20000 zero")),
    ("a refused listing that writes", HEAD, LISTING_REFUSED, LISTING_REFUSED.replace("4096 kept", "4096 dirty")),
    ("a refusal's number", HEAD, "refused 9 at 23", "refused 1 at 23"),
    ("a detail", HEAD, "refused 9 at 23", "refused 9 at 24"),
    ("words before a refusal", HEAD, "refused 9 at 23", "places 2 transitions 1 claims 0\nrefused 9 at 23"),
    ("a refusal not printed", HEAD, "refused 9 at 23\n", ""),
    ("a zero claim judged", ZERO_CLAIM, LISTING_OF_ZERO, ZERO_JUDGED),
    ("7 for 18", ZERO_CLAIM, "refused 18 at 29", "refused 7 at 33"),
    ("18 with the claim's number", ZERO_CLAIM, "refused 18 at 29", "refused 18 at 2"),
    ("18 at the first coefficient", ZERO_CLAIM, "number 18 at 29", "number 18 at 31"),
    ("another transition", CASE_J, "broken 2 2 1\n", "broken 1 2 1\n"),
    ("a marking that isn't inside", CASE_J, "broken 2 2 1\n", "broken 2 2 2\n"),
    ("a marking that stays inside", CASE_J, "broken 2 2 1\n", "broken 2 4 1\n"),
    ("a marking that isn't enabled", CASE_J, "broken 2 2 1\n", "broken 2 1 0\n"),
    ("a bad marking with 20,001 tokens", CASE_J, "broken 2 2 1\n", "broken 2 20001 13334\n"),
    ("a marking too short", CASE_J, "broken 2 2 1\n", "broken 2 2\n"),
    ("a marking too long", CASE_J, "broken 2 2 1\n", "broken 2 2 1 0\n"),
    ("no marking", CASE_J, "broken 2 2 1\n", "broken 2\n"),
    ("a zero before a number", CASE_J, "broken 2 2 1\n", "broken 2 02 1\n"),
    ("a sign before a number", CASE_J, "broken 2 2 1\n", "broken 2 +2 1\n"),
    ("two spaces", CASE_J, "broken 2 2 1\n", "broken 2 2  1\n"),
    ("a space after a marking", CASE_J, "broken 2 2 1\n", "broken 2 2 1 \n"),
    ("words for a marking", CASE_J, "broken 2 2 1\n", "broken 2 (a bad marking)\n"),
    ("a twin before the marking", CASE_J, "broken 2 3 2 twin 1", "broken 2 twin 1 3 2"),
    ("a missing twin after a marking", CASE_J, "broken 2 3 2 twin 1", "broken 2 3 2"),
    ("a twin's number among the tokens", CASE_J, "broken 2 3 2 twin 1", "broken 2 3 2 1 twin 1"),
    ("a missing listing", CASE_J, LISTING_OF_J, ""),
    ("a listing too many", CASE_J, LISTING_OF_J, 2 * LISTING_OF_J),
    ("a missing dot", CASE_J, LISTING_OF_J, LISTING_OF_J[:-2]),
    ("a dot too many", CASE_J, LISTING_OF_J, LISTING_OF_J + ".\n"),
    ("a dot without a newline", CASE_J, LISTING_OF_J, LISTING_OF_J[:-1]),
    ("an end by a signal", CASE_J, LISTING_OF_J, LISTING_OF_J + "(ended with status -11)"),
]

# 01's walk, the full place, the sheet with a zero claim and the one without a claim.
WALK_KINDS = ["01's", "a full place", "zero claim", "sheet without a claim"]
WALKED = [(walk, lines) for walk, lines in WALKS if walk.kind in WALK_KINDS]
ANSWERS = ["".join(line + "\n" for line in [*lines, "."]) for _, lines in WALKED]
RIGHT_WALKS = "".join(ANSWERS)

NONE, LAST = 14 * " 0", ANSWERS[-1]
BEGUN, MOVED = "begin 0: refusal 0 at 0, tokens", "step 1: refusal 0 at 0, tokens"
SECOND = f"{MOVED} 0 2{NONE}\n"

WRONG_WALKS = [
    ("another start", FIRST, f"{BEGUN} 2 0", f"{BEGUN} 0 1"),
    ("a start with tokens beyond n", FIRST, f"{BEGUN} 2 0 0", f"{BEGUN} 2 0 1"),
    ("a walk that doesn't move", FIRST, f"{MOVED} 1 1", f"{MOVED} 2 0"),
    ("a walk that moves once", FIRST, f"{MOVED} 0 2", f"{MOVED} 1 1"),
    ("a step that isn't refused", FIRST, "refusal 15 at 1", "refusal 0 at 0"),
    ("15 with another place", FIRST, "refusal 15 at 1", "refusal 15 at 2"),
    ("15 with a place from 0 on", FIRST, "refusal 15 at 1", "refusal 15 at 0"),
    ("a refused step that moves", FIRST, "refusal 15 at 1, tokens 0 2", "refusal 15 at 1, tokens 0 3"),
    ("a missing step", FIRST, SECOND, ""),
    ("a step too many", FIRST, SECOND, 2 * SECOND),
    ("a marking too short", FIRST, SECOND, f"{MOVED} 0 2{NONE[2:]}\n"),
    ("overflow before the tokens taken have left", FULL, f"{MOVED} 65535", "step 1: refusal 16 at 1, tokens 65535"),
    ("no overflow", FULL, "step 2: refusal 16 at 1, tokens 65535", "step 2: refusal 0 at 0, tokens 0"),
    ("15 for 16", FULL, "refusal 16 at 1", "refusal 15 at 1"),
    ("a start with a zero claim", ZERO_CLAIM, "begin 0: refusal 18 at 29, tokens 0", f"{BEGUN} 2"),
    ("a step with a zero claim", ZERO_CLAIM, "step 1: refusal 18 at 29, tokens 2 0", f"{MOVED} 1 1"),
    ("12 before 18", ZERO_CLAIM, "step 2: refusal 18 at 29", "step 2: refusal 12 at 2"),
    ("12 before the sheet's refusal", HEAD, "step 2: refusal 9 at 23", "step 2: refusal 12 at 2"),
    ("no marking after a refused sheet", HEAD, "at 23, tokens 2", "at 23, tokens 0"),
    ("a start from a refused sheet", HEAD, "begin 0: refusal 9 at 23, tokens 0", "begin 0: refusal 9 at 23, tokens 2"),
    ("a missing walk", HEAD, LAST, ""),
    ("a walk too many", HEAD, LAST, 2 * LAST),
    ("a missing dot after a walk", HEAD, LAST, LAST[:-2]),
    ("an end by a signal after a walk", HEAD, LAST, LAST + "(ended with status -11)"),
]

# Lists on 01's sheet, on the full place, on the sheet with a zero claim and on the one without a claim.
FINE_KINDS = ["an empty list", "two steps", "64 steps"]
REFUSED_KINDS = ["the third refused", "65 steps", "zero claim", "zero claim, 65 steps", "refused sheet, 65 steps"]
FIRED = [(made, line) for made, line in LISTS if made.kind in FINE_KINDS + REFUSED_KINDS]
RIGHT_LISTS = "".join(f"{line}\n.\n" for _, line in FIRED)

THIRD = f"refusal 15 at 1, position 3, tokens 2 0{NONE}"
TOO_LONG = "refusal 17 at 65, position 0, tokens 65470"
WITH_ZERO = "fire_list 1: refusal 18 at 29, position 0, tokens 2 0"
LONG_WITH_ZERO = "fire_list 65: refusal 18 at 29, position 0"
LAST_LIST = f"{FIRED[-1][1]}\n.\n"

WRONG_LISTS = [
    ("an empty list that moves", FIRST, f"position 0, tokens 2 0{NONE}", f"position 0, tokens 1 1{NONE}"),
    ("a list that moves once", FIRST, f"position 0, tokens 0 2{NONE}", f"position 0, tokens 1 1{NONE}"),
    ("a refused list that stays where it stopped", FIRST, THIRD, THIRD.replace("tokens 2 0", "tokens 0 2")),
    ("a position from 0 on", FIRST, THIRD, THIRD.replace("position 3", "position 2")),
    ("a refused list without its position", FIRST, THIRD, THIRD.replace("position 3", "position 0")),
    ("15 with another place in a list", FIRST, THIRD, THIRD.replace("15 at 1", "15 at 2")),
    ("a refused list told as fine", FIRST, THIRD, THIRD.replace("15 at 1, position 3", "0 at 0, position 0")),
    ("a list of 64 refused", FULL, "refusal 0 at 0, position 0, tokens 65535", "refusal 17 at 64, position 0, tokens 65471"),
    ("a list of 65 fired", FULL, TOO_LONG, "refusal 0 at 0, position 0, tokens 65535"),
    ("17 with the most there may be", FULL, TOO_LONG, TOO_LONG.replace("at 65", "at 64")),
    ("17 with a position", FULL, TOO_LONG, TOO_LONG.replace("position 0", "position 65")),
    ("a list with a zero claim", ZERO_CLAIM, WITH_ZERO, "fire_list 1: refusal 0 at 0, position 0, tokens 1 1"),
    ("18 with a position", ZERO_CLAIM, WITH_ZERO, WITH_ZERO.replace("position 0", "position 1")),
    ("17 before 18", ZERO_CLAIM, LONG_WITH_ZERO, "fire_list 65: refusal 17 at 65, position 0"),
    ("17 before the sheet's refusal", HEAD, "refusal 9 at 23", "refusal 17 at 65"),
    ("a missing list", HEAD, LAST_LIST, ""),
    ("a list too many", HEAD, LAST_LIST, 2 * LAST_LIST),
    ("a missing dot after a list", HEAD, LAST_LIST, LAST_LIST[:-2]),
    ("an end by a signal after a list", HEAD, LAST_LIST, LAST_LIST + "(ended with status -11)"),
]

REDUCED_5 = f"reduced 5: refusal 0 at 0, coefficients 1 1{NONE}, constant"
REDUCED_J = "reduced 2: refusal 0 at 0, coefficients 2 -3"
JUDGED_2 = "verdict 2: refusal 0 at 0, answer"
JUDGED_J = f"verdict 1: refusal 0 at 0, answer 3, transition 2, tokens 3 1{NONE}, marks 20008 zero, queue 20001 zero\n"
ASKED_J = f"pair 2: refusal 0 at 0, answer 2, tokens 3 1{NONE}, by transition 2"
RECORD_2 = "claim_record 2: refusal 0 at 0, from 29, length 6\n"
STEP_1 = "step 1: refusal 0 at 0, tokens"
LIST_3 = "fire_list 3: refusal 12 at 2, position 2, tokens 2 0"
LAST_CALLS = right_text(every_line(CASE_J)) + ".\n"

WRONG_CALLS = [
    ("a count, called", FIRST, "counts 2 1 5", "counts 2 1 4"),
    ("a weight, called", FIRST, "weights 1: refusal 0 at 0, taken 1 0", "weights 1: refusal 0 at 0, taken 0 1"),
    ("a start, called", FIRST, "start 0: refusal 0 at 0, tokens 2 0", "start 0: refusal 0 at 0, tokens 0 1"),
    ("a kind, called", FIRST, "kind 0, tokens 0 1", "kind 1, tokens 0 1"),
    ("a sign, called", FIRST, "half_space 2: refusal 0 at 0, coefficients -1", "half_space 2: refusal 0 at 0, coefficients 1"),
    ("a reduced form not reduced", FIRST, f"{REDUCED_5} 2", f"{REDUCED_5} 4".replace(" 1 1 ", " 2 2 ")),
    ("a reduced form with the constant as it was", FIRST, f"{REDUCED_5} 2", f"{REDUCED_5} 4"),
    ("a reduced form without its sign", CASE_J, REDUCED_J, REDUCED_J.replace("-3", "3")),
    ("a claim's check refused", FIRST, "claim_check 3: refusal 0 at 0", "claim_check 3: refusal 11 at 3"),
    ("a record one later", FIRST, RECORD_2, RECORD_2.replace("29", "30")),
    ("a record without its mark", FIRST, RECORD_2, RECORD_2.replace("29, length 6", "31, length 4")),
    ("no twin", FIRST, "twin 5: refusal 0 at 0, claim 1", "twin 5: refusal 0 at 0, claim 0"),
    ("a claim that is its own twin", FIRST, "twin 5: refusal 0 at 0, claim 1", "twin 5: refusal 0 at 0, claim 5"),
    ("a twin for a claim without", FIRST, "twin 4: refusal 0 at 0, claim 0", "twin 4: refusal 0 at 0, claim 1"),
    ("broken for proof, called", FIRST, "verdict 1: refusal 0 at 0, answer 4", "verdict 1: refusal 0 at 0, answer 3"),
    ("target-inside before start-outside, called", FIRST, f"{JUDGED_2} 1", f"{JUDGED_2} 2"),
    ("another transition, called", CASE_J, JUDGED_J, JUDGED_J.replace("transition 2", "transition 1")),
    ("a marking that isn't inside, called", CASE_J, JUDGED_J, JUDGED_J.replace("tokens 3 1", "tokens 2 2")),
    ("a marking that stays inside, called", CASE_J, JUDGED_J, JUDGED_J.replace("tokens 3 1", "tokens 4 1")),
    ("a marking that isn't enabled, called", CASE_J, JUDGED_J, JUDGED_J.replace("tokens 3 1", "tokens 1 0")),
    ("20,001 tokens, called", CASE_J, JUDGED_J, JUDGED_J.replace("tokens 3 1", "tokens 20001 13334")),
    ("a token beyond place n, called", CASE_J, JUDGED_J, JUDGED_J.replace("tokens 3 1 0", "tokens 2 1 1")),
    ("a marking of 15 numbers", CASE_J, JUDGED_J, JUDGED_J.replace("tokens 3 1 0", "tokens 2 1")),
    ("dirty marks", CASE_J, JUDGED_J, JUDGED_J.replace("marks 20008 zero", "marks 20008 dirty")),
    ("a queue that isn't cleared", CASE_J, JUDGED_J, JUDGED_J.replace("queue 20001 zero", "queue 20001 kept")),
    ("kept for broken, called", CASE_J, ASKED_J, ASKED_J.replace("answer 2, tokens 3 1", "answer 1, tokens 0 0")),
    ("another pair's marking", CASE_J, ASKED_J, ASKED_J.replace("tokens 3 1", "tokens 0 1")),
    ("areas cleared by a refusal", FIRST, "marks 19999 kept", "marks 19999 zero"),
    ("13 not given", FIRST, "verdict 1: refusal 13 at 0, answer 0", "verdict 1: refusal 0 at 0, answer 4"),
    ("a far number cut", FIRST, "refusal 11 at 4294967297", "refusal 11 at 1"),
    ("11 before the sheet's refusal", HEAD, "verdict 0: refusal 9 at 23", "verdict 0: refusal 11 at 0"),
    ("a detail, called", HEAD, "twin 1: refusal 9 at 23", "twin 1: refusal 9 at 0"),
    ("counts of a refused sheet", HEAD, "refusal 9 at 23, counts 0 0 0", "refusal 9 at 23, counts 2 1 0"),
    ("a zero claim judged, called", ZERO_CLAIM, "verdict 1: refusal 18 at 29, answer 0", "verdict 1: refusal 0 at 0, answer 4"),
    ("11 before 18, called", ZERO_CLAIM, "claim_check 0: refusal 18 at 29", "claim_check 0: refusal 11 at 0"),
    ("18 at the first coefficient, called", ZERO_CLAIM, "twin 1: refusal 18 at 29", "twin 1: refusal 18 at 31"),
    ("counts with a zero claim", ZERO_CLAIM, "refusal 18 at 29, counts 0 0 0", "refusal 18 at 29, counts 2 1 5"),
    ("another verdict in a text", FIRST, "claim 3 target-inside\n", "claim 3 proof\n"),
    ("a text of another length", FIRST, "text 4096 written", "text 4096 dirty"),
    ("a text written by a refusal", FIRST, "text 4095 kept", "text 4095 dirty"),
    ("another refusal's line", HEAD, "refused 9 at 23\n", "refused 9 at 24\n"),
    ("a walk that begins elsewhere", FIRST, "begin 0: refusal 0 at 0, tokens 2 0", "begin 0: refusal 0 at 0, tokens 0 1"),
    ("a step that clears what lies beyond", FIRST, f"{STEP_1} 1 1 9", f"{STEP_1} 1 1 0"),
    ("a refused step that moves, called", FIRST, "step 2: refusal 12 at 2, tokens 1 1", "step 2: refusal 12 at 2, tokens 0 2"),
    ("a refused list that moves, called", FIRST, LIST_3, LIST_3.replace("tokens 2 0", "tokens 1 1")),
    ("another position, called", FIRST, LIST_3, LIST_3.replace("position 2", "position 1")),
    ("a changed sheet, called", FIRST, "\n.\n", "\nsheet changed\n.\n"),
    ("a missing line, called", FIRST, RECORD_2, ""),
    ("a line too many, called", FIRST, RECORD_2, 2 * RECORD_2),
    ("a sheet without answers", CASE_J, LAST_CALLS, ""),
    ("answers too many", CASE_J, LAST_CALLS, 2 * LAST_CALLS),
    ("a missing dot after the calls", CASE_J, LAST_CALLS, LAST_CALLS[:-2]),
    ("an end by a signal after the calls", CASE_J, LAST_CALLS, LAST_CALLS + "(ended with status -11)"),
]
