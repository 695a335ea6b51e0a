#!/usr/bin/env bash
# The pages against the repository: the quotes of docs/trust are what their sources have, and its counts of definitions are right; all
# that the contracts of `run`, `Session` and `serve` rest on is quoted; the maps of crates are those of crates.txt; the examples on the
# crates' front pages are what tests run; numbers that stand in the code and on a page are the same, and so is the version; the
# docstring of each function begins with a verb; each wrong body can be applied and PROOFS names it; the contracts that pages claim are
# there, and say what they said; and no page names a file or a section that is not there.
. "$(dirname "$0")/common.sh"
install python3=python3
export PYTHONDONTWRITEBYTECODE=1 LC_ALL=C.UTF-8
cd "$top" || exit 1

check "the quotes are their sources' texts, and nothing that the contracts rest on is left out" python3 docs/trust/quotes.py --check
check "the maps of crates are those of crates.txt, and each crate's proofs have a place" python3 docs/develop/crates.py --check
check "the examples on the crates' front pages are what tests run" python3 docs/develop/examples.py --check
check "what \`afdx explain\` prints is in MESSAGES" python3 docs/develop/remedies.py --check
check "numbers on the pages are the constants of the code" python3 end_to_end/constants.py
check "the version is that of the code" python3 end_to_end/versions.py
check "the docstring of each function begins with a verb" python3 end_to_end/docstrings.py
check "each wrong body can be applied, and PROOFS names it" python3 end_to_end/edits.py

# --- what turns, in a copy ---

mkdir "$room/tree"
tar -c --exclude=out ./*.md crates.txt bench/*.md crates docs end_to_end/*.py examples/*.md | tar -x -C "$room/tree"

# turned_by COMMAND FILE OLD NEW LINE: with this text of the file turned, in the copy, the copy's script fails and says so.
turned_by() {
    local status=0 words
    read -ra words <<<"$1"
    sed -i "s/$3/$4/" "$room/tree/$2"
    diff "$2" "$room/tree/$2"
    python3 "$room/tree/${words[0]}" "${words[@]:1}" >"$room/answer.txt" 2>&1 || status=$?
    cat "$room/answer.txt" && cp "$2" "$room/tree/$2" && [ "$status" -eq 1 ] && grep -qF -- "$5" "$room/answer.txt"
}

# --- docstrings ---

check "a docstring of Rust that begins with no verb" turned_by end_to_end/docstrings.py crates/afdx_past/src/history.rt \
    '\/\/\/ Returns the item at' '\/\/\/ The item at' "the docstring of a function begins with 'The'"
check "a docstring of Python that begins with no verb" turned_by end_to_end/docstrings.py end_to_end/pages.py \
    '"""Returns the sections of' '"""The sections of' "the docstring of a function begins with 'The'"

# --- examples on front pages ---

examples='docs/develop/examples.py --check'
check "an example that is not as its test has it" turned_by "$examples" crates/afdx_rule_tests/src/first_calls.rt \
    'Instants::new(3)' 'Instants::new(4)' 'crates/afdx_earliest/src/lib.rt: the example is not as its test has it'
check "a crate whose example is gone" turned_by "$examples" crates/afdx_rule_tests/src/first_calls.rt \
    'example of afdx_lines' 'start of afdx_lines' 'afdx_lines: no example in any test'

# --- claims of contracts ---

turned() {
    turned_by end_to_end/claims.py "$@"
}

# renewed: with a clause turned the list is written anew, and then nothing is wrong.
renewed() {
    sed -i 's/ensures known { IfSome/ensures known { true ≡ true → IfSome/' "$room/tree/$session"
    ! python3 "$room/tree/end_to_end/claims.py" && python3 "$room/tree/end_to_end/claims.py" --renew &&
        python3 "$room/tree/end_to_end/claims.py" && ! diff docs/trust/claims.txt "$room/tree/docs/trust/claims.txt"
}

session=crates/afdx_session/src/session.rt
headline=crates/afdx_session/specs/Headline.antt
check "what pages claim is in the contracts, and is what it was" python3 end_to_end/claims.py
check "a clause with another name" turned $session 'ensures known' 'ensures there' 'Session::take has no clause known'
check "a weaker clause" turned crates/afdx_session/src/whole.rt 'ensures isolated { ' '&true ≡ false → ' \
    'afdx_session run, isolated: is not what it was when its claims were read (README.md, '
check "a call that requires more" turned $session '  ensures known' '  requires any { true ≡ true }\n&' \
    'afdx_session Session::take, requires any: is claimed, and not in the list'
check "a weaker statement of a law" turned $headline '^AcceptedRunsIsolate = ' '&(no : true ≡ false) → ' \
    'afdx_session laws::accepted_runs_isolate, ensures: is not what it was when its claims were read'
check "a weaker definition, which no page quotes" turned crates/afdx_account/specs/Level.antt '^PassesWhatConforms .* = ' \
    '&(no : true ≡ false) → ' 'afdx_account Meter::offer, conforming: is not what it was when its claims were read'
check "a function that is gone" turned $session 'fn waits_for' 'fn waits_on' 'there is no contract Session::waits_for'
check "a definition that is gone" turned $headline LosesNone LosesFew 'there is no definition'
check "a claim that is gone" turned docs/trust/PROOFS.md 'take_into, waits_for' 'take_into' 'Session::waits_for, some: no page claims it any more'
check "a contract without its form" turned docs/trust/PROOFS.md 'Session::finish_into' 'finish_into' 'is in a column of contracts, and no claim'
check "a list that is renewed" renewed

# --- files and sections ---

while read -r page; do
    check "$page names files that are there" python3 end_to_end/pages.py "$page"
done < <(find . \( -name out -o -name .git \) -prune -o -name '*.md' -print | sed 's|^\./||' | sort)
finish
