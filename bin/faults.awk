# Says which line of a text for the program `shelf` is the first that is wrong, and why: 'line 3: is empty'. Says nothing of a right text.
# The text comes with a dot behind its last byte, which shows whether its last line has ended, and with no NUL byte.

# A word of the text as a person can read it: cut where it is long.
function shown(word) {
    return length(word) > 24 ? substr(word, 1, 24) ".." : word
}

# Why a word is not a number as the text may have it, or nothing.
function word_fault(word) {
    if (word ~ /^-?(0|[1-9][0-9]*)$/ && word != "-0")
        return length(word) - (word ~ /^-/) > 10 ? shown(word) " has more than ten digits" : ""
    if (word == "-0") return "-0 is not written so, but 0"
    if (word ~ /^-?[0-9]+$/) return shown(word) " has a leading zero"
    if (word ~ /^[+][0-9]+$/) return shown(word) " has a plus sign"
    if (word ~ /^[-+]?[0-9]*[.,]?[0-9]*([eE][-+]?[0-9]+)?$/ && word ~ /[0-9]/) return shown(word) " is not a whole number"
    if (word ~ /^[!-~]+$/) return shown(word) " is not a number"
    return "has a character that is no digit"
}

# Why a line is not numbers with one space between, or nothing.
function form_fault(line,    i) {
    if (line ~ /\t/) return "has a tab"
    if (line == "") return "is empty"
    if (line ~ /^ /) return "starts with a space"
    if (line ~ / $/) return "ends with a space"
    if (line ~ /  /) return "has two spaces together"
    count = split(line, words, " ")
    for (i = 1; i <= count; i++) if (word_fault(words[i]) != "") return word_fault(words[i])
    return ""
}

# Why a size of line 1 is out of its range, or nothing.
function size_fault(name, size, least, most) {
    if (size + 0 < least) return name " is " size ", at least " least
    if (size + 0 > most) return name " is " size ", at most " most
    return ""
}

# Why line 1 is not k n h, or nothing. Takes the three.
function head_fault(    why) {
    if (count != 3) return "has " count (count == 1 ? " number" : " numbers") ", not the three k n h"
    why = size_fault("k", words[1], 1, 9)
    if (why == "") why = size_fault("n", words[2], 0, 512)
    if (why == "") why = size_fault("h", words[3], 0, 64)
    k = words[1] + 0; n = words[2] + 0; h = words[3] + 0
    return why
}

# Why a line of a point or a face is not that, or nothing.
function row_fault(is_face,    i) {
    if (count != k + is_face)
        return "has " count (count == 1 ? " number" : " numbers") ", and a " (is_face ? "face" : "point") " has " k + is_face " where k is " k
    for (i = 1; i <= k; i++)
        if (words[i] + 0 < -2147483648 || words[i] + 0 > 2147483647) return words[i] " is beyond 32 bits"
    return ""
}

# How many lines there must be, in words.
function all_lines() {
    return "where n is " n " and h is " h " there " (n + h == 0 ? "is 1 line" : "are " 1 + n + h " lines")
}

# Why a line is wrong, or nothing.
function line_fault(line, number, ended,    why) {
    if (bytes + length(line) + ended > 32768) return "goes beyond 32,768 bytes"
    if (number > 1 && number > 1 + n + h) return "comes after the last one: " all_lines()
    if (line ~ /\r$/) return "ends with a carriage return"
    if (line ~ /\r/) return "has a carriage return"
    if (number == 1 && line ~ /^\357\273\277/) return "starts with a byte order mark"
    if (!ended) return "ends with no newline"
    why = form_fault(line)
    if (why == "") why = number == 1 ? head_fault() : row_fault(number > 1 + n)
    bytes += length(line) + 1
    return why
}

# Says why a line is wrong, once.
function say(number, why) {
    if (why == "") return
    print "line " number ": " why
    said = 1
    exit
}

NR > 1 { say(NR - 1, line_fault(last, NR - 1, 1)) }
{ last = $0 }
END {
    if (said) exit
    sub(/[.]$/, "", last)
    if (last != "") say(NR, line_fault(last, NR, 0))
    else if (NR < 2) say(1, "is missing: the text is empty")
    else if (NR < 2 + n + h) say(NR, "is missing: " all_lines())
}
