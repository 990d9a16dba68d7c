# Cuts the marked blocks out of a page. A mark is a comment on a line of its own, right above a fenced block:
#
#   <!-- run -->      the block is run. Each command stands after '$ ', and what it prints below it; or each line
#                     is a command, and what they print is the next block, which is marked
#   <!-- prints -->
#
# A command is one line. One that doesn't end with 0 has the command 'echo $?' after it.
#
# Variable: into, a folder. The block that begins at line N gives the script into/N.sh, and what it must print,
# into/N.want; N has four digits. Each fault of the page is printed, and then the status is 1.

function fault(what) {
    printf "%s:%d: %s\n", FILENAME, FNR, what
    faults++
}

function quoted(text) {
    gsub(/'/, "'\\''", text)
    return "'" text "'"
}

# What goes before a command, or at the end: the status of the command before must be 0 unless it is asked for.
function add_check() {
    print "[ $status -eq 0 ] || echo \"[ended with $status]\"" > script
}

function add_command(command, shown) {
    if (command != "echo $?") add_check()
    if (shown) print "printf '%s\\n' " quoted("$ " command) > script
    print "(exit $status)" > script
    print command > script
    print "status=$?" > script
    commands++
}

function open_block() {
    block = mark
    mark = ""
    lines = 0
    if (block != "run") return
    script = sprintf("%s/%04d.sh", into, FNR)
    want = sprintf("%s/%04d.want", into, FNR)
    commands = 0
    print "status=0" > script
    printf "" > want
}

function add_line() {
    lines++
    if (block == "run" && lines == 1) is_session = (substr($0, 1, 2) == "$ ")
    if (block == "run" && !is_session) {
        if (NF) add_command($0, 0)
    } else if (block == "run" && substr($0, 1, 2) == "$ ") {
        add_command(substr($0, 3), 1)
        print > want
    } else if (block != "") {
        print > want
    }
}

function close_block() {
    if (block == "run") {
        add_check()
        close(script)
        if (!commands) fault("the block has no command")
        needs_prints = !is_session
    }
    if (block == "prints") needs_prints = 0
    if (block != "" && !needs_prints) close(want)
}

BEGIN { is_open = 0; mark = ""; block = ""; needs_prints = 0; faults = 0 }

/^```/ {
    if (is_open) close_block()
    else open_block()
    is_open = !is_open
    next
}

is_open { add_line(); next }

/<!--/ {
    if (mark != "") fault("a mark above another mark")
    if ($0 == "<!-- run -->") mark = "run"
    else if ($0 == "<!-- prints -->") mark = "prints"
    else fault("a comment that is no mark")
    if (mark == "prints" && !needs_prints) {
        fault("no block of commands is before this one")
        mark = ""
    }
    if (mark == "run" && needs_prints) {
        fault("the block of commands before has no block of what they print")
        needs_prints = 0
    }
    next
}

NF && mark != "" {
    fault("the mark above is not right above a block")
    mark = ""
}

END {
    if (is_open) fault("the last block has no end")
    if (mark != "") fault("the last mark has no block")
    if (needs_prints) fault("the last block of commands has no block of what they print")
    exit (faults > 0)
}
