# Writes the help of one command from the man page: its line of the synopsis, its entry, and the entries of its options and words.
# It ends with status 1 if the page has no such command.
# usage: awk -v command=COMMAND -v called=dk -f tools/dk/help.awk docs/dk.1

function without_fonts(text) {
    gsub(/\\f[BIPR]/, "", text)
    gsub(/\\-/, "-", text)
    gsub(/\\\(dq/, "\"", text)
    return text
}

# The words after a macro: those between two quotation marks are one word.
function split_words(text, words,    count) {
    count = 0
    while (match(text, /^ *("[^"]*"|[^" ][^ ]*)/)) {
        words[++count] = substr(text, 1, RLENGTH)
        text = substr(text, RLENGTH + 1)
        sub(/^ */, "", words[count])
        gsub(/^"|"$/, "", words[count])
    }
    return count
}

# A line without macros and fonts. The words of a macro with two fonts are written without blanks in between.
function plain(line,    words, count, between, text, k) {
    if (line !~ /^\.[BIR]/) return without_fonts(line)
    between = line ~ /^\.[BI] / ? " " : ""
    sub(/^\.[BIR]+ */, "", line)
    count = split_words(line, words)
    text = count ? words[1] : ""
    for (k = 2; k <= count; k++) text = text between words[k]
    return without_fonts(text)
}

# Writes a text in lines of at most 78 columns.
function write_text(text, indent,    words, count, line, k) {
    count = split(text, words, " ")
    line = indent
    for (k = 1; k <= count; k++) {
        if (line != indent && length(line " " words[k]) > 78) {
            print line
            line = indent
        }
        line = line (line == indent ? "" : " ") words[k]
    }
    print line
}

# A word of the synopsis, such as PROG; "OUT, VCD" is the entry of two.
function has_word(names,    parts, count, k) {
    count = split(names, parts, ", ")
    for (k = 1; k <= count; k++)
        if (index(" " files " ", " " parts[k] " ")) return 1
    return 0
}

function end_entry() {
    if (section == "COMMANDS" && entry == command) {
        print "usage: " called " " synopsis "\n"
        write_text(text, "")
    } else if (section == "OPTIONS" && index(synopsis, "[" entry "]") || section == "WORDS" && has_word(entry)) {
        print "\n  " entry
        write_text(text, "      ")
    }
    entry = text = ""
}

/^\.\\"/ { next }
/^\.SH / {
    end_entry()
    section = substr($0, 5)
    next
}
section == "SYNOPSIS" && index(plain($0) " ", "dk " command " ") == 1 {
    synopsis = substr(plain($0), 4)
    files = synopsis
    gsub(/\[[^]]*\]/, "", files)
    next
}
/^\.(TP|PP)$/ {
    end_entry()
    is_name = $0 == ".TP"
    next
}
is_name {
    entry = plain($0)
    is_name = 0
    next
}
entry != "" { text = text " " plain($0) }
END {
    end_entry()
    exit synopsis == ""
}
