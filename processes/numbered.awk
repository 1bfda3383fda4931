# Numbered transactions: scripts that make them, and what must be there of them behind any end of such a run.
#
#   awk -v what=make -v seed=S -v first=F -v count=C [-v table=1] -f numbered.awk
#   awk -v what=look -f numbered.awk
#   awk -v what=check -v first=F -v base=M -v found=N -f numbered.awk SCRIPT TRANSCRIPT LOOK
#
# make prints the script of the transactions F to F + C - 1, with the table before them where `table` is set. Transaction 0
# puts record 0. Transaction t puts record t, and but for each fourth one, which stands outside a transaction, it sets the
# turn of record 0 to t and deletes the records that are eight numbers back. Sessions 1 and 2 make them in an order that the
# seed picks, as it picks which commits are lazy; session 3 has a transaction open that is never committed. look prints a
# script that reads up to twelve records, in both orders.
#
# check reads a script of make that ran over a volume with the transactions before F and M log entries, the transcript of
# that run, which may have ended anywhere, and that of a look at what it has left, of which /g tells N log entries. It prints
# the last transaction that is there, -1 where there is none, and how many lines were acknowledged as flushed. On standard
# error it says what is missing of these, what is there too much, and what is there of a transaction in part.

function call(session, text) { print session " " text }

# The turn of record 0 behind transaction t.
function last_turn(t) { return t % 4 == 0 && t > 0 ? t - 1 : t }

function length_of(t) { return 5 + t * 397 % 2500 }

function byte_of(t) { return sprintf("%02x", 97 + t % 26) }

function make_table() {
    call(1, "CreateTable Work")
    call(1, "AddColumn Work id Long")
    call(1, "AddColumn Work turn Long")
    call(1, "AddColumn Work body LongText")
    call(1, "CreateIndex Work pk primary +id")
    call(1, "CreateIndex Work byTurn +turn")
}

function put(session, t) {
    call(session, "PrepareUpdate 1 insert")
    call(session, "SetColumn 1 id 1 n:" t)
    call(session, "SetColumn 1 turn 1 n:" t)
    call(session, "SetColumn 1 body 1 r:" length_of(t) ":" byte_of(t))
}

function seek(session, id) {
    call(session, "MakeKey 1 new n:" id)
    call(session, "Seek 1 EQ")
}

# A line that says which transaction the next call ends.
function ends(t) { print "# ends " t }

function outside(session, t) {
    put(session, t)
    ends(t)
    call(session, "Update 1")
}

function undone(session) {
    call(session, "BeginTransaction")
    seek(session, 0)
    call(session, "Delete 1")
    call(session, "Rollback")
}

function inside(session, t) {
    if (t % 4 == 3) undone(session)
    call(session, "BeginTransaction")
    put(session, t)
    call(session, "Update 1")
    if (t % 4 == 2) undone(session)
    seek(session, 0)
    call(session, "PrepareUpdate 1 replace")
    call(session, "SetColumn 1 turn 1 n:" t)
    call(session, "Update 1")
    for (id = t - 8; id >= 1 && id >= t - 8 - (t % 4 == 1); id--) {
        seek(session, id)
        call(session, "Delete 1")
    }
    ends(t)
    call(session, rand() < 0.5 ? "CommitTransaction lazy" : "CommitTransaction")
}

function make(first, count, t, session) {
    srand(seed)
    call(1, "BeginSession")
    if (table) make_table()
    call(2, "BeginSession")
    call(3, "BeginSession")
    for (session = 1; session <= 3; session++) call(session, "OpenTable 1 Work")
    call(3, "BeginTransaction")
    put(3, 1000000 + first)
    call(3, "Update 1")
    for (t = first; t < first + count; t++) {
        session = rand() < 0.5 ? 1 : 2
        if (t % 4 == 0) outside(session, t)
        else inside(session, t)
    }
}

function look(step) {
    call(1, "BeginSession")
    call(1, "OpenTable 1 Work")
    call(1, "Move 1 First")
    for (step = 1; step <= 12; step++) look_at_record()
    call(1, "SetCurrentIndex 1 byTurn")
    for (step = 1; step <= 12; step++) look_at_record()
}

function look_at_record() {
    call(1, "RetrieveColumn 1 id 1")
    call(1, "RetrieveColumn 1 turn 1")
    call(1, "RetrieveColumn 1 body 1 max 4")
    call(1, "Move 1 Next")
}

# What a look reads of a record, whose turn is another one where it is record 0.
function read_of(id, turn) {
    return "n:" id " n:" turn " " length_of(id) " x:" byte_of(id) byte_of(id) byte_of(id) byte_of(id) " "
}

# What a look reads in both orders behind transaction t.
function wanted(t, id, from, numbers, turns) {
    if (t < 0) return ""
    from = t - 7 - (t % 4 == 0)
    if (from < 1) from = 1
    numbers = read_of(0, last_turn(t))
    for (id = from; id <= t; id++) {
        numbers = numbers read_of(id, id)
        if (id == last_turn(t)) turns = turns read_of(0, id)
        turns = turns read_of(id, id)
    }
    if (t == 0) turns = read_of(0, 0)
    return numbers "| " turns
}

# How many log entries a call makes that succeeds.
function entries_of(session, name, words) {
    if (name == "Update" || name == "Delete") return level[session] ? 1 : 3
    if (name == "PrepareUpdate") return words ~ / replace$/
    return name ~ /^(BeginSession|OpenTable|BeginTransaction|CommitTransaction|Rollback|CreateTable|AddColumn|CreateIndex)$/
}

# Whether a call is answered once its entries are on the volume.
function is_flushed(session, name, words) {
    if (name == "CommitTransaction") return level[session] == 1 && words !~ / lazy$/
    if (name == "Update") return !level[session]
    return name ~ /^(CreateTable|AddColumn|CreateIndex)$/
}

# Takes a line of the transcript that tells of a call's success.
function succeeded(number, session, name, words) {
    number += entries_of(session, name, words)
    if (number > most) most = number
    if (lines in ended) last = ended[lines]
    if (is_flushed(session, name, words)) {
        flushes++
        least = number
        acknowledged = last
    }
    if (name == "BeginTransaction") level[session]++
    if (name == "CommitTransaction" || name == "Rollback") level[session]--
}

function say(text) {
    print text >"/dev/stderr"
    status = 1
}

BEGIN {
    if (what == "make") make(first, count)
    if (what == "look") look()
    if (what != "check") exit
    acknowledged = last = first - 1
    least = most = base
    highest = -1
    flushes = 0
}

FILENAME == ARGV[1] && $2 == "ends" { ended[calls + 1] = $3 }

FILENAME == ARGV[1] && $1 != "#" { script[++calls] = $0 }

# A line that was cut in its reply tells nothing.
FILENAME == ARGV[2] && $4 != "JET_errSuccess" && $4 != "" && index("JET_errSuccess", $4) != 1 { say("a line replies " $4) }

FILENAME == ARGV[2] && $4 == "JET_errSuccess" {
    split(script[++lines], call_line)
    if ($2 != call_line[1] || $3 != call_line[2]) say("line " lines " is that of another call")
    succeeded($1, $2, $3, script[lines])
}

FILENAME == ARGV[3] && $3 == "SetCurrentIndex" { reads = reads "| " }

FILENAME == ARGV[3] && $3 == "RetrieveColumn" && $5 != "" {
    reads = reads $5 ($6 == "" ? "" : " " $6) " "
    if (reads !~ /[|]/ && values++ % 3 == 0) highest = substr($5, 3) + 0
}

END {
    if (what != "check") exit
    print highest, flushes
    # The call behind the last line may have run, and makes up to three entries.
    if (lines < calls) most += 3
    if (lines + 1 in ended) last = ended[lines + 1]
    if (found < least) say("there are " found " log entries, of " least " that were acknowledged")
    if (found > most) say("there are " found " log entries, of " most " that were made")
    if (highest < acknowledged) say("transaction " highest " is the last, and " acknowledged " was acknowledged")
    if (highest > last) say("transaction " highest " is the last, and " last " was the last to end")
    if (highest >= 0 && reads != wanted(highest)) say("a look reads " reads "where behind transaction " highest " it reads " wanted(highest))
    exit status
}
