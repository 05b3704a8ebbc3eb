#!/bin/sh
# A ticket can't be let go: a body that does so, in a crate above mf_share in a copy of the repository, must be refused by the
# compiler for the ticket's sake. A line for each body that isn't, then a count.
cd "$(dirname "$0")/.." || exit 1
copy=$(mktemp -d) || exit 1
trap 'rm -rf "$copy"' EXIT
trap 'exit 1' HUP INT TERM
mkdir -p "$copy/crates/let_go/src"
cp HANDLES crates.txt "$copy"
echo 'let_go: mf_share' >>"$copy/crates.txt"
tar cf - --exclude=out --exclude=proofs --exclude=must-fail crates | tar xf - -C "$copy" || exit 1
passed=0
failed=0

# Whether the compiler refuses this body for the ticket's sake.
is_refused() {
    cat >"$copy/crates/let_go/src/lib.rt" <<EOF
//! A ticket is let go.
use mf_share::{Job, Ticket};
use std::sync::ledger::Ledger;
use std::test::Fail;

pub fn let_go<J: Job, B: Ledger>(ticket: Ticket<J, B>) {
    $1
}

#[test]
fn nothing(_rt: HostRuntime) -> Result<(), Fail> {
    Ok(())
}
EOF
    log=$(cd "$copy/crates/let_go" && rt try --test 2>&1)
    case $log in
    *'src/lib.rt:7:'*'error[unsatisfied-bound]'*'`Ticket<J, B>: Drop`'*) ;;
    *'src/lib.rt:7:'*'error[linear-value-let-go]'*'`Ticket<J, B>` is not `Drop`'*) ;;
    *)
        echo "$log" | tail -n 5
        return 1
        ;;
    esac
}

for body in 'drop(ticket);' 'let _held = ticket;' 'std::mem::forget(ticket);'; do
    if is_refused "$body"; then
        passed=$((passed + 1))
    else
        failed=$((failed + 1))
        echo "not refused as it must be: $body"
    fi
done
echo "$passed passed, $failed failed"
[ "$failed" -eq 0 ]
