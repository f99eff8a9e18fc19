# shellcheck shell=bash
# Functions for bash that find a refused field of a telegram, correct a text, and help in a pipe. docs/refusals.md
# describes their use. `balisekit show` names the refused field of each line of a file. Read them into a bash:
#
#     . examples/find-field.sh
#
# Bits are counted from 0 and lines from 1. If the line or bit does not exist, or a number is too great for its bits, a
# function reports this on standard error and ends with status 1. Its output is then incomplete. A pad bit counts as a bit
# of the line. Use a text that was changed this way only to find the cause and for tests, never for a balise.

# What the functions below share: bits of a line, and an error if there are none.
# shellcheck disable=SC2016
line_bits='
    function refuse(why) {
        print why > "/dev/stderr"
        refused = 1
        exit 1
    }
    function digit_at(bit,    digit) {
        digit = substr($0, int(bit / 4) + 1, 1)
        digit = digit == "" ? 0 : index("0123456789abcdef", tolower(digit))
        if (digit == 0) refuse("line " line " has no hexadecimal digit for bit " bit)
        return digit - 1
    }
    function bit_at(bit) {
        return int(digit_at(bit) / substr("8421", bit % 4 + 1, 1)) % 2
    }
    function field(at, end,    bit, number) {
        for (bit = at; bit < end; bit++) number = 2 * number + bit_at(bit)
        return number + 0
    }
    NR == line { met = 1 }
    END { if (!met && !refused) refuse("there is no line " line) }
'

# show_bits LINE AT END: in this line of the input, the bits AT to END - 1 and the number they spell.
show_bits() {
    awk -v line="$1" -v at="$2" -v end="$3" "$line_bits"'NR == line {
        for (bit = at; bit < end; bit++) bits = bits bit_at(bit)
        print bits " is " field(at, end)
    }'
}

# put_number LINE AT END NUMBER: the input, with the number as bits AT to END - 1 of this line.
put_number() {
    awk -v line="$1" -v at="$2" -v end="$3" -v number="$4" "$line_bits"'
    BEGIN {
        if (number !~ /^[0-9]+$/ || number + 0 >= 2 ^ (end - at))
            refuse(number " is no number of " (end - at) " bits")
    }
    NR == line {
        for (bit = end - 1; bit >= at; bit--) {
            place = int(bit / 4) + 1
            digit = digit_at(bit) + (number % 2 - bit_at(bit)) * substr("8421", bit % 4 + 1, 1)
            number = int(number / 2)
            $0 = substr($0, 1, place - 1) substr("0123456789abcdef", digit + 1, 1) substr($0, place + 1)
        }
    }
    { print }'
}

# move_zeros LINE: the input, with the zeros in front of the telegram of this line moved behind it.
move_zeros() {
    awk -v line="$1" "$line_bits"'
    NR == line {
        sub(/\r$/, "")
        digits = length($0)
        zeros = digits < 100 ? 6 : 2
        if (field(0, zeros) != 0) refuse("line " line " does not begin with " zeros " zeros")
        $0 = $0 "00"
        for (at = zeros; at < zeros + 4 * digits; at += 4)
            moved = moved substr("0123456789abcdef", field(at, at + 4) + 1, 1)
        $0 = moved
    }
    { print }'
}

# list_packets LINE: where the packets of this line of the input begin by their L_PACKETs.
list_packets() {
    awk -v line="$1" "$line_bits"'
    NR == line {
        last = length($0) < 100 ? 210 : 830
        for (at = 50; at + 8 <= last; at += size) {
            number = field(at, at + 8)
            if (number == 255) { print "packet 255 at bit " at; exit }
            size = number == 0 ? 14 : field(at + 10, at + 23)
            print "packet " number " at bit " at ", " size " bits"
            if (size < 14) exit
        }
    }'
}

# json_lines: passes on the answers, and writes a refusal on standard error.
json_lines() {
    awk '/^refused: / { print > "/dev/stderr"; next } { print }'
}

# number_lines FILE: passes on answers to this file, each after the number of its line there.
number_lines() {
    file=$1 awk 'BEGIN {
        file = ENVIRON["file"]
        path = file ~ /^\// ? file : "./" file
    }
    {
        do {
            if ((getline text < path) <= 0) {
                print file " has no line for answer " NR > "/dev/stderr"
                exit 1
            }
            number++
            sub(/\r$/, "", text)
        } while (text == "")
        print number " " $0
    }'
}
