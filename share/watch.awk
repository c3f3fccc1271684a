# The lines of monitor_run, shown for people by ./tray watch: one line a message, then a count and
# how the run ended. Any awk; a line goes out for each that comes in, and only counts are kept.
# Where the lines stop before END or ! it counts nothing, prints neither, and leaves 1.
# docs/GUIDE.md, "Who got what", says how to read it.

BEGIN {
    WIDTH = 80                                      # data words are shown as far as they fit
    LAYOUT = "%-7s %-11s %-45s"                     # message, bus, and three more:
    MIDDLE = "%-30s %s"                             # what with words, and outcome
    PAIR = "%-21s %8s"                              # what, words

    # the rows of document 001's table of formats, as the state word has them
    TO = 0; FROM = 1; TRANSFER = 2; MODE = 3; MODE_WITH_WORD = 4; MODE_FOR_WORD = 5

    mode_name[0] = "dynamic bus control"
    mode_name[1] = "synchronize"
    mode_name[2] = "transmit status word"
    mode_name[3] = "initiate self-test"
    mode_name[4] = "transmitter shutdown"
    mode_name[5] = "override transmitter shutdown"
    mode_name[6] = "inhibit terminal flag"
    mode_name[7] = "override inhibit terminal flag"
    mode_name[8] = "reset remote terminal"
    mode_name[16] = "transmit vector word"
    mode_name[17] = "synchronize with data word"
    mode_name[18] = "transmit last command"
    mode_name[19] = "transmit built-in-test word"
    mode_name[20] = "selected transmitter shutdown"
    mode_name[21] = "override selected transmitter shutdown"

    MESSAGE_ERROR = 10; BUSY = 3
    status_name[MESSAGE_ERROR] = "message error"
    status_name[9] = "instrumentation"
    status_name[8] = "service request"
    status_name[7] = "reserved bit 7"
    status_name[6] = "reserved bit 6"
    status_name[5] = "reserved bit 5"
    status_name[4] = "broadcast received"
    status_name[BUSY] = "busy"
    status_name[2] = "subsystem flag"
    status_name[1] = "bus control accepted"
    status_name[0] = "terminal flag"

    # the kinds of failure, in the order of the count
    kinds = split("words missing,no answer,busy,message error,unsound word,word after a gap," \
        "word too many,other station answered,data instead of status,command among data," \
        "broken off,second command does not fit,illegal command,command as status", kind, ",")

    refusal[2] = "a station above 30"
    look_at[2] = "the first value byte of the setup; 31 is for all stations"
    refusal[5] = "it ends inside a field"
    look_at[5] = "the copy: is it as long as its source?"
    refusal[6] = "a tag that is none of 01 to 07"
    look_at[6] = "the length of the field before, where that is a host write"
    refusal[7] = "a length that is not the tag's"
    look_at[7] = "the two bytes behind the tag, high byte first"
    refusal[8] = "spare bits, a line above 1, or a write past cell 3FFF"
    look_at[8] = "the value's first byte; in a setup the third; in a write address and length"
    refusal[9] = "a setup that is not the first field, or a first field that is no setup"
    look_at[9] = "its two ends: is it two recordings put together, or one without its beginning?"
    AT_BYTE_0 = "what it is: text that ./tray bytes has to turn? A controller's recording?"

    for (value = 0; value < 16; value++) digit[substr("0123456789ABCDEF", value + 1, 1)] = value
    power[0] = 1                                    # of two; not every awk can raise a number
    for (bit = 1; bit < 16; bit++) power[bit] = 2 * power[bit - 1]
}

# ---- numbers and words

function number(hex) {
    return 4096 * digit[substr(hex, 1, 1)] + 256 * digit[substr(hex, 2, 1)] \
        + 16 * digit[substr(hex, 3, 1)] + digit[substr(hex, 4, 1)]
}

# so many bits of the value, from the lowest one on
function bits(value, lowest, how_many) {
    return int(value / power[lowest]) % power[how_many]
}

# word of the message, from 0 on
function word(place) {
    return number($(3 + place))
}

function station_of(command) {
    return bits(command, 11, 5)
}

function subaddress_of(command) {
    return bits(command, 5, 5)
}

function named(station) {
    return station == 31 ? "all" : station ""
}

# ---- the message at hand

# takes the line apart: its row, and where that row has the data words and the first status
function take_apart(    state, low_five) {
    state = number($2)
    line = bits(state, 15, 1) ? "B" : "A"
    row = bits(state, 10, 3)
    is_illegal = bits(state, 9, 1)
    is_misfit = bits(state, 8, 1)
    code = bits(state, 0, 3)

    stored = NF - 2
    command = word(0)
    low_five = bits(command, 0, 5)
    mode = row < MODE ? "" : low_five
    second = row == TRANSFER && stored > 1 ? word(1) : ""

    if (row < MODE) wanted = low_five == 0 ? 32 : low_five
    else wanted = row == MODE ? 0 : 1
    data = row == TRANSFER ? 3 : row == FROM || row == MODE_FOR_WORD ? 2 : 1
    status = row == TO ? wanted + 1 : row == TRANSFER || row == MODE_WITH_WORD ? 2 : 1
    last_status = row == TRANSFER ? wanted + 3 : 0
    taken = stored - data
    if (taken < 0) taken = 0
    if (taken > wanted) taken = wanted
}

# who speaks to whom
function bus(    to) {
    to = named(station_of(command))
    if (row == TRANSFER) return line " " (second == "" ? "?" : station_of(second)) " to " to
    return line (row == FROM || row == MODE_FOR_WORD ? " from " : " to ") to
}

# subaddress or mode code, and how many data words of how many; a status without a bit, taken for a
# command, reads as mode code 0 in the wrong direction
function what(    name, words) {
    words = taken " of " wanted
    if (mode != "") name = mode in mode_name ? mode_name[mode] : "reserved mode code " mode
    else if (second != "") name = "subaddress " subaddress_of(second) " to " subaddress_of(command)
    else name = "subaddress " subaddress_of(command)
    if (row == MODE) return bits(command, 0, 11) ? name : name ", or status"
    return length(name) > 21 ? name " " words : sprintf(PAIR, name, words)
}

# what became of it: in capitals where it failed, and it counts as its first failure
function failed(how, more) {
    if (failure == "") failure = how
    outcome = outcome (outcome == "" ? "" : ", ") toupper(how more)
}

function remarked(how) {
    remarks = remarks ", " how
}

# in a transfer the sender's status comes first, then the receiver's
function awaited() {
    return station_of(stored == status ? second : command)
}

function judge_fault(    is_due) {
    is_due = stored == status || stored == last_status
    if (code == 1) failed("unsound word")
    else if (code == 2) failed("no answer", row == TRANSFER ? " from " awaited() : "")
    else if (code == 3) failed(taken < wanted ? "words missing" : "word after a gap")
    else if (code == 4) failed("word too many")
    else if (code == 5) failed("other station answered")
    else if (code == 6) failed(is_due ? "data instead of status" : "command among data")
    else if (code == 7) failed(is_misfit ? "second command does not fit" : "broken off")
}

# A status with message error, or busy where data were to move, is of a box that did not do it.
# Transmit status word (2) and transmit last command (18) bring the status of the message before.
# One that has bits set and is the command over again may be no status: a command that was repeated
# after one silence looks so.
function judge_status(value, order,    at, bit) {
    at = row == TRANSFER ? " at " station_of(order) : ""
    if (value == order && bits(value, 0, 11)) {
        failed("command as status", at)
        return
    }
    for (bit = 10; bit >= 0; bit--) {
        if (!bits(value, bit, 1)) continue
        if (!is_illegal && (mode == 2 || mode == 18)) remarked("earlier " status_name[bit])
        else if (bit == MESSAGE_ERROR || bit == BUSY && row < MODE) failed(status_name[bit], at)
        else remarked(status_name[bit] at)
    }
}

function judge() {
    failure = outcome = remarks = ""
    if (is_illegal) failed("illegal command")
    judge_fault()
    if (stored > status) judge_status(word(status), row == TRANSFER ? second : command)
    if (row == TRANSFER && stored > last_status) judge_status(word(last_status), command)
    sub(/^ILLEGAL COMMAND,/, "ILLEGAL,", outcome)
    if (failure == "") outcome = "sound"
}

function show(    mark, text, place) {
    take_apart()
    judge()
    messages++
    if (failure != "") failures[failure]++
    else sound++
    if (failure == "" && remarks != "") remarkable++
    mark = failure != "" ? "!!" : remarks != "" ? "*" : ""
    text = sprintf(LAYOUT, sprintf("%-2s%5.0f", mark, messages), bus(), \
        sprintf(MIDDLE, what(), outcome remarks))
    for (place = data; place < data + taken; place++) {
        if (place > data && length(text) + 5 > WIDTH) break
        text = text " " $(3 + place)
    }
    put(text)
}

# ---- lines

function put(text) {
    sub(/ +$/, "", text)
    print text
    fflush()
}

function put_head() {
    put(sprintf(LAYOUT " data", "message", "bus", \
        sprintf(MIDDLE, sprintf(PAIR, "what", "words"), "outcome")))
}

function put_count(    entry) {
    put(sprintf("%.0f message%s: %.0f sound%s, %.0f failed", messages, messages == 1 ? "" : "s", \
        sound, remarkable ? sprintf(" (%.0f with a remark)", remarkable) : "", messages - sound))
    for (entry = 1; entry <= kinds; entry++)
        if (kind[entry] in failures) put(sprintf("%7.0f %s", failures[kind[entry]], kind[entry]))
}

# behind the end nothing may come
is_over { is_strange = 1; exit }

/^W [0-9A-F][0-9A-F][0-9A-F][0-9A-F]( [0-9A-F][0-9A-F][0-9A-F][0-9A-F])+$/ {
    if (!messages) put_head()
    show()
    next
}

/^END [0-9]+$/ {
    is_over = 1
    put_count()
    put("END of the recording: " $2 ($2 == 1 ? " field" : " fields") " taken")
    next
}

/^! [0-9]+ [0-9]+$/ {
    is_over = 1
    put_count()
    put("! REFUSED at byte " $3 ", number " $2 \
        ($2 in refusal ? ": " refusal[$2] : ""))
    if ($2 in look_at) put("  look at " ($2 == 6 && $3 == 0 ? AT_BYTE_0 : look_at[$2]))
    put("  its bytes: od -A d -t x1 -j " $3 " FILE; nothing from there on was looked at")
    next
}

{ is_strange = 1; exit }

END { if (!is_over || is_strange) exit 1 }
