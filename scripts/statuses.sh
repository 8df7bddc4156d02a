#!/bin/sh
# The program ends with the statuses of docs/format.md, and writes what they promise. It is run as it is built, on real
# input and output: whole documents, half a document, a closed input, a full output, and with too little memory.
top=$(cd "$(dirname "$0")/.." && pwd) || exit 1
document=$top/examples/one_wire.json
variant='{"variant":{"numbers":[0],"wires":[{"from":["cavity",0],"length":700,"net":0,"route":[0],"row":1,"to":["cavity",1]}]},"version":1}'
failed=0

# ends STATUS WHAT COMMAND..: the command has to end with the status
ends() {
    wanted=$1
    what=$2
    shift 2
    "$@"
    status=$?
    if [ "$status" -ne "$wanted" ]; then
        echo "statuses: $what ends with $status and not with $wanted"
        failed=1
    fi
}

plan() { "$top/bin/loom" plan 2>/dev/null; }
plan_whole() { plan < "$document" | cmp -s - "$top/crates/loom/stdout"; }
plan_document() { plan < "$document" > /dev/null; }
plan_half() { head -c 100 "$document" | plan > /dev/null; }
plan_closed() { plan <&- > /dev/null; }
plan_full() { plan < "$document" > /dev/full; }
plan_in_little_memory() { (ulimit -v 60000; head -c 67108864 /dev/zero | tr '\0' ' ' | plan > /dev/null); }
extract_from_plan() {
    plan < "$document" | sed 's/^{/{"choice":[],/' | "$top/bin/loom" extract 2>/dev/null | grep -qxF "$variant"
}
check_own_plan() { plan < "$document" | "$top/bin/loom" check 2>/dev/null | grep -qxF '{"verdict":{"answer":"yes"},"version":1}'; }
check_longer_wire() { plan < "$document" | sed 's/"length":700,"net"/"length":701,"net"/' | "$top/bin/loom" check > /dev/null 2>&1; }
no_word() { "$top/bin/loom" < "$document" > /dev/null 2>&1; }

ends 0 "a whole document" plan_document
ends 0 "its line, compared with the wanted one," plan_whole
ends 0 "the variant of an answer with a choice added" extract_from_plan
ends 0 "the check of an answer" check_own_plan
ends 1 "half a document" plan_half
ends 2 "a call without a word" no_word
ends 3 "a closed input" plan_closed
ends 4 "a full output" plan_full
ends 5 "a document that memory can't hold" plan_in_little_memory
ends 6 "the check of an answer with a longer wire" check_longer_wire
[ "$failed" -eq 0 ] && echo "statuses: 0 to 6, as they must be"
exit "$failed"
