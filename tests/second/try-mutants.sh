#!/bin/bash
# try-mutants.sh [include-directory [scale [group...]]]: shows that the driver notices.
#
# The driver is built with reference.c as it is, once for each of its groups. Then, for each mutant, a copy of reference.c with one line
# changed by sed (ref_... renamed to mut_...) stands in for the library behind mock.c. Each mutant has to make its own group of the
# driver end with status 1; the mock with no change has to make it end with 0. (A mutant that makes it crash is caught too.) The scale
# is the driver's second argument. Groups: frame, data, eoc, scrambler, receiver, symbols, startup; all if none is named. Status 0 only
# if all of that holds.
set -u
include=$(cd "${1:-$(dirname "$0")/../../include}" && pwd) || exit 2
cd "$(dirname "$0")" || exit 2
scale=${2:-0.1}
groups=${*:3}
groups=${groups:-frame data eoc scrambler receiver symbols startup}
cc=${CC:-gcc}
flags="-std=c11 -Wall -Wextra -Wconversion -Werror -O2 -I$include"

work=$(mktemp -d) || exit 2
trap 'rm -rf "$work"' EXIT

for file in harness sending bylist joined reference; do
    $cc $flags -c "$file.c" -o "$work/$file.o" || exit 2
done
sed 's/\bref_/mut_/g' reference.h > "$work/mutant.h"
sed 's/\bref_/mut_/g; s/"reference.h"/"mutant.h"/' mock.c > "$work/mock.c"
$cc $flags -I"$work" -c "$work/mock.c" -o "$work/mock.o" || exit 2

tried=0
missed=0
on=false

# group NAME: from here on the driver has this group alone. Says whether it agrees with the mock as it is.
group() {
    on=false
    case " $groups " in *" $1 "*) ;; *) return ;; esac
    on=true
    echo "-- $1"
    for file in second "second_$1"; do
        $cc $flags "-DSECOND_${1^^}" -c "$file.c" -o "$work/${file/#second_*/group}.o" || exit 2
    done
    if ! build 0 -e '' || ! "$work/driver" 0x5eed "$scale" > "$work/output"; then
        echo "the mock with no change already differs:"
        cat "$work/output"
        exit 1
    fi
    echo "no change: $(tail -n 1 "$work/output")"
}

# build LINES SED...: the driver against the changed copy. Fails if not exactly so many lines changed.
build() {
    local lines=$1
    shift
    sed "$@" reference.c > "$work/changed.c"
    local changed
    changed=$(diff reference.c "$work/changed.c" | grep -c '^[<]')
    if [ "$changed" -ne "$lines" ]; then
        echo "  $changed lines changed, not $lines"
        return 1
    fi
    sed 's/\bref_/mut_/g; s/"reference.h"/"mutant.h"/' "$work/changed.c" > "$work/mutant.c"
    # a mutant may leave something unused, so no warnings here
    $cc -std=c11 -w -O2 -I"$include" -I"$work" "$work/mutant.c" "$work"/*.o -o "$work/driver"
}

# mutant TEXT SED...: one line changed (or two or three where TEXT says so).
mutant() {
    local text=$1 lines=1
    shift
    $on || return
    case $text in *"(two lines)"*) lines=2 ;; *"(three lines)"*) lines=3 ;; esac
    tried=$((tried + 1))
    if ! build "$lines" "$@"; then
        echo "BROKEN  $text"
        missed=$((missed + 1))
        return
    fi
    ("$work/driver" 0x5eed "$scale") > "$work/output" 2> "$work/errors"
    local status=$?
    if [ $status -eq 1 ]; then
        printf 'caught  %-60s %s\n' "$text" "$(tail -n 1 "$work/output" | sed 's/ (seed.*//; s/.*comparisons, //')"
        sed -n 's/^  \(.*[^ ]\)  *\([0-9]*\), \([0-9]*\) differ$/            \1: \3 of \2/p' "$work/output"
    elif [ $status -gt 128 ]; then
        printf 'caught  %-60s %s\n' "$text" "the driver crashes"
    else
        echo "MISSED  $text"
        missed=$((missed + 1))
    fi
}

# within FUNCTION TEXT SED...: changes in one function only
within() {
    local range="/^[a-z].*\\b$1(/,/^}/" text=$2 edits=() edit
    shift 2
    for edit in "$@"; do
        edits+=(-e "$range$edit")
    done
    mutant "$text" "${edits[@]}"
}

group frame
mutant "A and B read last bit first" -e '/^static int64_t get_field/,/^}/s/bits\[first + i\]/bits[first + (width == 21 ? 20 - i : i)]/'
mutant "A and B written last bit first" -e '/^static void put_field/,/^}/s/bits\[first + i\]/bits[first + (width == 21 ? 20 - i : i)]/'
mutant "a coefficient's sign lost" -e 's/^                number -= 4194304;$/                number -= 0;/'
mutant "checks in another order: pad before sync" -e '/^static uint32_t judge(/,/^}/s/^    if (!has_sync(bits, training_sync).*/    if (!all_zero(bits, 4228, 4232)) return SDSL_BAD_PAD; else &/'
mutant "pad not checked" -e '/^static uint32_t judge(/,/^}/s/LAST_BIT + 1, FRAME_BITS/LAST_BIT + 2, FRAME_BITS/'
mutant "another divisor" -e 's/places\[4\] = {0, 4, 11, 16}/places[4] = {0, 4, 12, 16}/'
mutant "c1 taken as the coefficient of 1" -e 's/^        c\[i\] = rest\[MESSAGE_BITS + i - 1\];/        c[i] = rest[MESSAGE_BITS + 16 - i];/'
mutant "a final frame writes coefficients" -e 's/^    fields.kind = kind;/    fields.kind = kind; if (kind == SDSL_FINAL) coefficients[719] = 0;/'
mutant "vendor data written before a refusal" -e '/^struct sdsl_frame_fields ref_frame_read/,/^}/s/^    fields.answer = judge(bits, &kind);/    fields.answer = judge(bits, \&kind); pack(bits + 4016, 128, vendor);/'
mutant "reserved bits answered with 8" -e '/^static uint32_t judge(/,/^}/s/^    return SDSL_DONE;/    return *kind == SDSL_TRAINING \&\& !all_zero(bits, 4145, 4211) ? 8 : SDSL_DONE;/'
mutant "reserved bits answered with 8, before the check bits" -e '/^static uint32_t judge(/,/^}/s/^    divide(bits, c);/    if (*kind == SDSL_TRAINING \&\& !all_zero(bits, 4145, 4211)) return 8; else divide(bits, c);/'
mutant "reserved bits answered with 7" -e '/^static uint32_t judge(/,/^}/s/^    return SDSL_DONE;/    return *kind == SDSL_TRAINING \&\& !all_zero(bits, 4145, 4211) ? SDSL_BAD_CHECK : SDSL_DONE;/'
mutant "the first two reserved bits taken, the others answered with 7" -e '/^static uint32_t judge(/,/^}/s/^    return SDSL_DONE;/    return *kind == SDSL_TRAINING \&\& !all_zero(bits, 4147, 4211) ? SDSL_BAD_CHECK : SDSL_DONE;/'
mutant "reserved bits of a final frame answered with 7" -e '/^static uint32_t judge(/,/^}/s/^    return SDSL_DONE;/    return *kind == SDSL_FINAL \&\& !all_zero(bits, 4145, 4211) ? SDSL_BAD_CHECK : SDSL_DONE;/'
mutant "reserved bits answered with 8 by checking alone" -e '/^uint32_t ref_frame_check/,/^}/s/^    return judge(bits, &kind);/    uint32_t answer = judge(bits, \&kind); return answer == 0 \&\& kind == 0 \&\& !all_zero(bits, 4145, 4211) ? 8 : answer;/'
mutant "reserved bits answered with 8 by reading alone" -e '/^struct sdsl_frame_fields ref_frame_read/,/^}/s/^    fields.answer = judge(bits, &kind);/& if (fields.answer == 0 \&\& kind == 0 \&\& !all_zero(bits, 4145, 4211)) fields.answer = 8;/'
mutant "the remainder without the reserved bits" -e '/^static void divide(/,/^}/s/^        rest\[i\] = bits\[FIRST_COEFFICIENT_BIT + i\];/        rest[i] = i < 4145 - 15 ? bits[FIRST_COEFFICIENT_BIT + i] : 0;/'
mutant "the remainder without the last reserved bit" -e '/^static void divide(/,/^}/s/^        rest\[i\] = bits\[FIRST_COEFFICIENT_BIT + i\];/        rest[i] = i < 4211 - 15 ? bits[FIRST_COEFFICIENT_BIT + i] : 0;/'
mutant "reserved octets not written" -e '/^struct sdsl_frame_fields ref_frame_read/,/^}/s/^        pack(nine, 72, reserved);/        ;/'
mutant "the top five bits of the ninth octet left as they were" -e '/^struct sdsl_frame_fields ref_frame_read/,/^}/s/^        pack(nine, 72, reserved);/        pack(nine, 67, reserved);/'
mutant "reserved bits added to what stood in the room" -e '/^struct sdsl_frame_fields ref_frame_read/,/^}/s/^        pack(nine, 72, reserved);/        for (size_t i = 1; i <= 72; i++) reserved[(i - 1) \/ 8] |= nine[i] << (i - 1) % 8; reserved[8] \&= 7;/'
mutant "64 of the 67 reserved bits" -e '/^struct sdsl_frame_fields ref_frame_read/,/^}/s/i <= 67; i++/i <= 64; i++/'
mutant "66 of the 67 reserved bits" -e '/^struct sdsl_frame_fields ref_frame_read/,/^}/s/i <= 67; i++/i <= 66; i++/'
mutant "68 reserved bits, c1 the last" -e '/^struct sdsl_frame_fields ref_frame_read/,/^}/s/i <= 67; i++/i <= 68; i++/'
mutant "reserved bits from one place too early" -e '/^struct sdsl_frame_fields ref_frame_read/,/^}/s/bits\[RESERVED_BIT + i - 1\]/bits[RESERVED_BIT + i - 2]/'
mutant "reserved bits from one place too late" -e '/^struct sdsl_frame_fields ref_frame_read/,/^}/s/bits\[RESERVED_BIT + i - 1\]/bits[RESERVED_BIT + i]/'
mutant "reserved bits from the frame's last 67, the check bits among them" -e '/^struct sdsl_frame_fields ref_frame_read/,/^}/s/bits\[RESERVED_BIT + i - 1\]/bits[LAST_BIT - 67 + i]/'
mutant "reserved octets from one octet too early" -e '/^struct sdsl_frame_fields ref_frame_read/,/^}/s/bits\[RESERVED_BIT + i - 1\]/bits[RESERVED_BIT - 8 + i - 1]/'
mutant "reserved bits the last first" -e '/^struct sdsl_frame_fields ref_frame_read/,/^}/s/bits\[RESERVED_BIT + i - 1\]/bits[CHECK_BIT - i]/'
mutant "reserved octets last bit first" -e '/^struct sdsl_frame_fields ref_frame_read/,/^}/s/^            nine\[i\] = /            nine[8 * ((i - 1) \/ 8) + 8 - (i - 1) % 8] = /'
mutant "reserved bits in the top 67 of the 72" -e '/^struct sdsl_frame_fields ref_frame_read/,/^}/s/^            nine\[i\] = /            nine[5 + i] = /'
mutant "one octet too many for the reserved bits written" -e '/^struct sdsl_frame_fields ref_frame_read/,/^}/s/^        pack(nine, 72, reserved);/& reserved[9] ^= 1;/'
mutant "a final frame writes the reserved octets" -e '/^struct sdsl_frame_fields ref_frame_read/,/^}/s/^    fields.kind = kind;/& if (kind == SDSL_FINAL) pack(bits + 4144, 67, reserved);/'
mutant "a final frame clears the reserved octets" -e '/^struct sdsl_frame_fields ref_frame_read/,/^}/s/^    fields.kind = kind;/& for (size_t i = 0; i < 9 \&\& kind == SDSL_FINAL; i++) reserved[i] = 0;/'
mutant "a final frame clears the top five bits of the ninth octet" -e '/^struct sdsl_frame_fields ref_frame_read/,/^}/s/^    fields.kind = kind;/& if (kind == SDSL_FINAL) reserved[8] %= 8;/'
mutant "reserved octets written before a refusal" -e '/^struct sdsl_frame_fields ref_frame_read/,/^}/s/^    fields.answer = judge(bits, &kind);/& pack(bits + 4144, 67, reserved);/'
mutant "reserved octets written where the check bits are wrong" -e '/^struct sdsl_frame_fields ref_frame_read/,/^}/s/^    fields.answer = judge(bits, &kind);/& if (fields.answer == SDSL_BAD_CHECK) pack(bits + 4144, 67, reserved);/'
mutant "reserved octets cleared before another length is refused" -e '/^struct sdsl_frame_fields ref_frame_read/,/^}/s/^    if (frame_len != 529/    for (size_t i = 0; i < 9 \&\& reserved_len == 9 \&\& vendor_len != 16; i++) reserved[i] = 0; &/'
mutant "a fourth room of 10 octets taken" -e '/^struct sdsl_frame_fields ref_frame_read/,/^}/s/reserved_len != 9/(reserved_len != 9 \&\& reserved_len != 10)/'
mutant "a fourth room of 8 octets taken" -e '/^struct sdsl_frame_fields ref_frame_read/,/^}/s/reserved_len != 9/(reserved_len != 9 \&\& reserved_len != 8)/'
mutant "a fourth room of 0 octets taken, and then not written (two lines)" -e '/^struct sdsl_frame_fields ref_frame_read/,/^}/s/reserved_len != 9/(reserved_len != 9 \&\& reserved_len != 0)/' -e '/^struct sdsl_frame_fields ref_frame_read/,/^}/s/^        pack(nine, 72, reserved);/        pack(nine, 8 * reserved_len, reserved);/'
mutant "a longer fourth room taken" -e '/^struct sdsl_frame_fields ref_frame_read/,/^}/s/reserved_len != 9/reserved_len < 9/'
mutant "a fourth room's length cut to 32 bits" -e '/^struct sdsl_frame_fields ref_frame_read/,/^}/s/reserved_len != 9/(uint32_t)reserved_len != 9/'
mutant "a fourth room's length not looked at" -e '/^struct sdsl_frame_fields ref_frame_read/,/^}/s/ || reserved_len != 9//'
mutant "a fourth room's length looked at for a training frame only (two lines)" -e '/^struct sdsl_frame_fields ref_frame_read/,/^}/s/ || reserved_len != 9//' -e '/^struct sdsl_frame_fields ref_frame_read/,/^}/s/^    fields.answer = judge(bits, &kind);/    if (has_sync(bits, training_sync) \&\& reserved_len != 9) { fields.answer = SDSL_BAD_LENGTH; return fields; } &/'
mutant "checks in another order: the sync word before the fourth room's length (two lines)" -e '/^struct sdsl_frame_fields ref_frame_read/,/^}/s/ || reserved_len != 9//' -e '/^struct sdsl_frame_fields ref_frame_read/,/^}/s/^    fields.answer = judge(bits, &kind);/& if (fields.answer != SDSL_NO_SYNC \&\& reserved_len != 9) fields.answer = SDSL_BAD_LENGTH;/'
send() { within ref_frame_send "$@"; }
# What goes out, and the state that comes back.
send "sent as written, not scrambled" 's/pack(sent, /pack(plain, /'
send "sent as written, and the old state back (two lines)" 's/result.state = run_behind/run_behind/' 's/pack(sent, /pack(plain, /'
send "sent descrambled" 's/run_behind_sync(scramble_bits, /run_behind_sync(descramble_bits, /'
send "scrambled twice" 's/run_behind_sync(scramble_bits, .*/& for (size_t n = 1; n <= FRAME_BITS; n++) plain[n] = sent[n]; &/'
send "right for the first bit, the rest as written" 's/^    pack(sent, /    for (size_t n = 16; n <= LAST_BIT; n++) sent[n] = plain[n]; &/'
send "coefficients not scrambled, the rest is" 's/^    pack(sent, /    for (size_t n = 15; n < 3975; n++) sent[n] = plain[n]; &/'
send "check bits not scrambled" 's/^    pack(sent, /    for (size_t n = 4212; n <= LAST_BIT; n++) sent[n] = plain[n]; &/'
send "check bits of what goes out" 's/^    pack(sent, /    put_check_bits(sent); &/'
send "sync bits scrambled, and the state clocked by them" 's/^    result.state = run_behind.*/    for (size_t n = 1; n <= FRAME_BITS; n++) sent[n] = 0; result.state = scramble_bits(end, state, plain, LAST_BIT, sent);/'
send "clocked through the sync bits, which go out as they are" 's/^    result.state = run_behind.*/    for (size_t n = 1; n <= FRAME_BITS; n++) sent[n] = 0; result.state = scramble_bits(end, state, plain, LAST_BIT, sent); for (size_t n = 1; n <= 14; n++) sent[n] = plain[n];/'
send "sync bits put into the state" 's/^    result.state = run_behind/    for (size_t n = 1; n <= 14; n++) state = (2 * state + plain[n]) % 8388608; &/'
send "scrambled from the fourteenth bit on" 's/^    result.state = run_behind.*/    for (size_t n = 1; n <= FRAME_BITS; n++) sent[n] = plain[n]; result.state = scramble_bits(end, state, plain + 13, LAST_BIT - 13, sent + 13);/'
send "scrambled from the sixteenth bit on" 's/^    result.state = run_behind.*/    for (size_t n = 1; n <= FRAME_BITS; n++) sent[n] = plain[n]; result.state = scramble_bits(end, state, plain + 15, LAST_BIT - 15, sent + 15);/'
send "the pad scrambled too" 's/^    result.state = run_behind.*/    for (size_t n = 1; n <= 14; n++) sent[n] = plain[n]; result.state = scramble_bits(end, state, plain + 14, FRAME_BITS - 14, sent + 14);/'
send "clocked through the pad, which goes out as zero" 's/^    result.state = run_behind.*/    for (size_t n = 1; n <= 14; n++) sent[n] = plain[n]; result.state = scramble_bits(end, state, plain + 14, FRAME_BITS - 14, sent + 14); for (size_t n = LAST_BIT + 1; n <= FRAME_BITS; n++) sent[n] = 0;/'
send "scrambled with the other end's tap" 's/(scramble_bits, end, /(scramble_bits, 1 - end, /'
send "scrambled with the LTU's tap at either end" 's/(scramble_bits, end, /(scramble_bits, SDSL_LTU, /'
send "from the starting state each time" 's/(scramble_bits, end, state, /(scramble_bits, end, 0, /'
send "the next state that of the plain bits" 's/run_behind_sync(scramble_bits, .*/& result.state = 0; for (size_t n = LAST_BIT - 22; n <= LAST_BIT; n++) result.state = 2 * result.state + plain[n];/'
send "the old state handed back" 's/result.state = run_behind/run_behind/'
send "the starting state handed back" 's/run_behind_sync(scramble_bits, .*/& result.state = 0;/'
send "the next state without its newest bit" 's/run_behind_sync(scramble_bits, .*/& result.state \/= 2;/'
send "the next state with a bit too many" 's/run_behind_sync(scramble_bits, .*/& result.state = 2 * result.state % 8388608;/'
send "the next state the other way about" 's/run_behind_sync(scramble_bits, .*/& result.state = 0; for (size_t n = LAST_BIT; n > LAST_BIT - 23; n--) result.state = 2 * result.state + sent[n];/'
send "always the frame of no fields" 's/^    make_bits(.*/    make_bits(kind, 0, coefficients, 0, 0, (const uint8_t[16]){0}, plain);/'
send "a final frame for every kind" 's/^    make_bits(kind, /    make_bits(SDSL_FINAL, /'
# The fields.
within make_bits "the sync words exchanged" 's/kind == SDSL_TRAINING ? training_sync : final_sync/kind == SDSL_TRAINING ? final_sync : training_sync/'
within make_bits "unused coefficients sent, not zero" 's/i < count; i++/i < 180; i++/'
within make_bits "only 128 coefficients sent" 's/i < count; i++/i < 128; i++/'
within make_bits "a coefficient sent as sign and magnitude" 's/number += 4194304;/number = 2097152 + -number % 2097152;/'
within make_bits "A and B exchanged" 's/put_field(bits, A_BIT, 21, a)/put_field(bits, A_BIT, 21, b), b = a/'
within make_bits "a final frame carries A" 's/^    unpack(vendor/    put_field(bits, A_BIT, 21, a); &/'
within make_bits "a final frame carries B" 's/^    unpack(vendor/    put_field(bits, B_BIT, 21, b); &/'
within make_bits "a final frame carries the first coefficient" 's/^    unpack(vendor/    put_field(bits, FIRST_COEFFICIENT_BIT, 22, number_at(coefficients, 0) \& 4194303); &/'
within make_bits "vendor data one bit early" 's/bits + VENDOR_BIT - 1/bits + VENDOR_BIT - 2/'
within make_bits "a training frame without vendor data" 's/^    unpack(vendor/    if (kind == SDSL_FINAL) &/'
within make_bits "no check bits" 's/^    put_check_bits(bits);/    ;/'
within make_bits "a final frame without check bits" 's/^    put_check_bits(bits);/    if (kind == SDSL_TRAINING) &/'
# The room.
send "the room left unwritten" 's/^    pack(sent, .*/    ;/'
send "the room's old pad bits left" 's/pack(sent, FRAME_BITS, frame)/pack(sent, LAST_BIT, frame)/'
send "a pad of ones" 's/^    pack(sent, .*/& frame[528] |= 248;/'
send "the last octet left" 's/pack(sent, FRAME_BITS, frame)/pack(sent, FRAME_BITS - 8, frame)/'
send "added to what stood in the room" 's/^    pack(sent, .*/    for (size_t n = 1; n <= FRAME_BITS; n++) frame[(n - 1) \/ 8] |= sent[n] << (n - 1) % 8;/'
send "one octet too many written" 's/^    pack(sent, .*/& frame[529] ^= 1;/'
send "old reserved bits sent, under their check bits" 's/^    make_bits(.*/& unpack(frame + 518, 67, plain + 4144); put_check_bits(plain);/'
send "old reserved bits sent, under the check bits of zeros" 's/^    make_bits(.*/& unpack(frame + 518, 67, plain + 4144);/'
send "old reserved bits left on the line" 's/^    pack(sent, /    unpack(frame + 518, 67, sent + 4144); &/'
send "a reserved bit sent" 's/^    make_bits(.*/& plain[4145] = 1; put_check_bits(plain);/'
send "vendor data changed" 's/^    pack(sent, .*/& ((uint8_t *)vendor)[15] ^= 128;/'
send "unused coefficients cleared" 's/^    pack(sent, .*/& for (size_t i = count; training \&\& i < 180; i++) put_number((uint8_t *)coefficients, i, 0);/'
send "an old pad bit answered with 6" 's/^    if (result.answer != SDSL_DONE) {/    if (result.answer == SDSL_DONE \&\& frame[528] >= 8) result.answer = SDSL_BAD_PAD; &/'
# One list of checks, in number order.
send "checks in another order: kind before lengths" 's/^    if (coefficients_len/    if (kind > 1) result.answer = SDSL_UNKNOWN; else if (coefficients_len/'
send "checks in another order: end before lengths" 's/^    if (coefficients_len/    if (end > 1) result.answer = SDSL_UNKNOWN; else if (coefficients_len/'
send "checks in another order: count before lengths" 's/^    if (coefficients_len/    if (training \&\& (count < 128 || count > 180)) result.answer = SDSL_BAD_COUNT; else if (coefficients_len/'
send "checks in another order: state before lengths" 's/^    if (coefficients_len/    if (state >= 8388608) result.answer = SDSL_OUT_OF_RANGE; else if (coefficients_len/'
send "checks in another order: count before the end" 's/^    } else if ((kind/    } else if (training \&\& (count < 128 || count > 180)) { result.answer = SDSL_BAD_COUNT; &/'
send "checks in another order: state before kind and end" 's/^    } else if ((kind/    } else if (state >= 8388608) { result.answer = SDSL_OUT_OF_RANGE; &/'
send "checks in another order: A before the end" 's/^    } else if ((kind/    } else if (training \&\& a > 2097151) { result.answer = SDSL_OUT_OF_RANGE; &/'
send "checks in another order: state before the count" 's/^    } else if (training && (count/    } else if (state >= 8388608) { result.answer = SDSL_OUT_OF_RANGE; &/'
send "checks in another order: A before the count" 's/^    } else if (training && (count/    } else if (training \&\& a > 2097151) { result.answer = SDSL_OUT_OF_RANGE; &/'
send "checks in another order: B before the count" 's/^    } else if (training && (count/    } else if (training \&\& b > 2097151) { result.answer = SDSL_OUT_OF_RANGE; &/'
send "checks in another order: coefficients before the count" 's/^    } else if (training && (count/    } else if (training \&\& has_bad_number(128, coefficients, 0, 0)) { result.answer = SDSL_OUT_OF_RANGE; &/'
send "writing's list, then scrambling's" 's/^    } else if ((kind.*/    } else if (kind > 1) { result.answer = SDSL_UNKNOWN; } else if (training \&\& (count < 128 || count > 180)) { result.answer = SDSL_BAD_COUNT; } else if (training \&\& has_bad_number(count, coefficients, a, b)) { result.answer = SDSL_OUT_OF_RANGE; } else if (end > 1) {/'
send "scrambling's list, then writing's" 's/^    if (coefficients_len/    if (frame_len != 529) result.answer = SDSL_BAD_LENGTH; else if (end > 1) result.answer = SDSL_UNKNOWN; else if (state >= 8388608) result.answer = SDSL_OUT_OF_RANGE; else if (coefficients_len/'
# What is looked at, and how far.
send "a final frame's state not looked at" 's/ || state >= 8388608/ || (training \&\& state >= 8388608)/'
send "a final frame's end not looked at" 's/(end != SDSL_LTU/(training \&\& end != SDSL_LTU/'
send "the end not looked at" 's/ || (end != SDSL_LTU && end != SDSL_NTU)//'
send "the kind not looked at" 's/(kind != SDSL_TRAINING && kind != SDSL_FINAL) || //'
send "the state not looked at" 's/ || state >= 8388608//'
send "a final frame's count looked at" 's/^    } else if (training && (count/    } else if ((count/'
send "a final frame's coefficients looked at" 's/(training && has_bad_number(count, coefficients, a, b))/has_bad_number(training ? count : 128, coefficients, training ? a : 0, training ? b : 0)/'
send "a final frame's A looked at" 's/ || state >= 8388608/ || a > 2097151 || state >= 8388608/'
send "a final frame's B looked at" 's/ || state >= 8388608/ || b > 2097151 || state >= 8388608/'
send "a final frame's buffer of coefficients not looked at" 's/(coefficients_len != 720/((training \&\& coefficients_len != 720)/'
send "kind taken as one octet" 's/^    bool training/    kind %= 256; bool training/'
send "kind taken as its lowest bit" 's/^    bool training/    kind %= 2; bool training/'
send "end taken as one octet" 's/^    bool training/    end %= 256; bool training/'
send "end taken as its lowest bit" 's/^    bool training/    end %= 2; bool training/'
send "an unknown end taken for the NTU" 's/^    bool training/    end = end > 1 ? 1 : end; bool training/'
send "count taken as one octet" 's/^    bool training/    count %= 256; bool training/'
send "a count of 127 taken" 's/count < 128/count < 127/'
send "a count of 128 refused" 's/count < 128/count <= 128/'
send "a count of 180 refused" 's/count > 180/count >= 180/'
send "a count of 181 taken, as 180" 's/^    bool training/    count = count == 181 ? 180 : count; bool training/'
send "a count with a sign" 's/count > 180/(int32_t)count > 180/'
send "a state of 2^23 taken" 's/state >= 8388608/state > 8388608/'
send "a state of 2^23 - 1 refused" 's/state >= 8388608/state >= 8388607/'
send "a state cut to 23 bits" 's/^    bool training/    state %= 8388608; bool training/'
send "a state cut to 24 bits" 's/^    bool training/    state %= 16777216; bool training/'
send "a state with a sign" 's/state >= 8388608/(int32_t)state >= 8388608/'
within has_bad_number "a coefficient of -2,097,153 taken" 's/number < -2097152/number < -2097153/'
within has_bad_number "a coefficient of 2,097,152 taken" 's/number > 2097151/number > 2097152/'
within has_bad_number "a coefficient of -2,097,152 refused" 's/number < -2097152/number <= -2097152/'
within has_bad_number "a coefficient of 2,097,151 refused" 's/number > 2097151/number >= 2097151/'
within has_bad_number "A of 2,097,152 taken" 's/a > 2097151/a > 2097152/'
within has_bad_number "B of 2,097,152 taken" 's/b > 2097151/b > 2097152/'
within has_bad_number "A with a sign" 's/a > 2097151/(int32_t)a > 2097151/'
within has_bad_number "B of 2,097,151 refused" 's/b > 2097151/b >= 2097151/'
within has_bad_number "unused coefficients looked at" 's/i < count; i++/i < 180; i++/'
within has_bad_number "the last coefficient in use not looked at" 's/i < count; i++/i + 1 < count; i++/'
within has_bad_number "only 128 coefficients looked at" 's/i < count; i++/i < 128; i++/'
within has_bad_number "a coefficient cut to 22 bits" 's/int64_t number = number_at(coefficients, i);/int64_t number = number_at(coefficients, i) % 2097152;/'
send "a longer buffer of coefficients taken" 's/coefficients_len != 720/coefficients_len < 720/'
send "coefficients of 4 count octets taken" 's/coefficients_len != 720/(coefficients_len != 720 \&\& coefficients_len != 4 * (size_t)count)/'
send "longer vendor data taken" 's/vendor_len != 16/vendor_len < 16/'
send "a longer room taken" 's/frame_len != 529/frame_len < 529/'
send "a room of 528 taken, and the last octet not written (two lines)" 's/frame_len != 529/(frame_len != 529 \&\& frame_len != 528)/' 's/pack(sent, FRAME_BITS, frame)/pack(sent, 8 * frame_len, frame)/'
send "the length of coefficients cut to 32 bits" 's/coefficients_len != 720/(uint32_t)coefficients_len != 720/'
send "the length of vendor data cut to 32 bits" 's/vendor_len != 16/(uint32_t)vendor_len != 16/'
send "the length of the room cut to 32 bits" 's/frame_len != 529/(uint32_t)frame_len != 529/'
send "the length of the room cut to 16 bits" 's/frame_len != 529/(uint16_t)frame_len != 529/'
send "the length of coefficients not looked at" 's/coefficients_len != 720 || //'
send "the length of vendor data not looked at" 's/vendor_len != 16 || //'
send "no octets of vendor data taken for zeros (two lines)" 's/vendor_len != 16/(vendor_len != 16 \&\& vendor_len != 0)/' 's/b, vendor, plain);/b, vendor_len == 0 ? (const uint8_t[16]){0} : vendor, plain);/'
send "everything refused" 's/^    if (coefficients_len != 720 || vendor_len != 16 || frame_len != 529) {/    if (true) {/'
# A refusal.
send "a refused call leaves the written frame in the room: a wide state" 's/^    if (result.answer != SDSL_DONE) {/    if (result.answer == SDSL_OUT_OF_RANGE \&\& (!training || !has_bad_number(count, coefficients, a, b))) ref_make_frame(kind, count, coefficients, a, b, vendor, frame); &/'
send "a refused call leaves the scrambled frame in the room: a wide state" 's/^    if (result.answer != SDSL_DONE) {/    if (result.answer == SDSL_OUT_OF_RANGE \&\& (!training || !has_bad_number(count, coefficients, a, b))) { ref_make_frame(kind, count, coefficients, a, b, vendor, frame); ref_put_on_line(end, state % 8388608, frame, frame); } &/'
send "a refused call leaves the written frame in the room: an unknown end" 's/^    if (result.answer != SDSL_DONE) {/    if (result.answer == SDSL_UNKNOWN \&\& kind == SDSL_FINAL) ref_make_frame(kind, count, coefficients, a, b, vendor, frame); &/'
send "a refused call leaves the sync word in the room" 's/^    if (result.answer != SDSL_DONE) {/    if (result.answer > SDSL_UNKNOWN) { frame[0] = training ? 0x9f : 0x6b; frame[1] = training ? 0x35 : 0x3e; } &/'
send "a refused call clears the room" 's/^    if (result.answer != SDSL_DONE) {/    for (size_t i = 0; i < 529 \&\& result.answer > SDSL_BAD_LENGTH; i++) frame[i] = 0; &/'
send "a refused length clears a room of the right one" 's/^    if (result.answer != SDSL_DONE) {/    for (size_t i = 0; i < 529 \&\& frame_len == 529 \&\& result.answer == SDSL_BAD_LENGTH; i++) frame[i] = 0; &/'
send "a refused call clears the pad" 's/^    if (result.answer != SDSL_DONE) {/    if (result.answer > SDSL_BAD_LENGTH) frame[528] \&= 7; &/'
send "0 for the state on a refusal" 's/{SDSL_DONE, state}/{SDSL_DONE, 0}/'
send "0 for a state that is too wide" 's/^    if (result.answer != SDSL_DONE) {/    if (state >= 8388608) result.state = 0; &/'
send "a wide state handed back cut to 23 bits" 's/^    if (result.answer != SDSL_DONE) {/    result.state %= 8388608; &/'
send "a refused call moves the state on" 's/^    if (result.answer != SDSL_DONE) {/    if (result.answer == SDSL_BAD_COUNT) result.state = 2 * state % 8388608; &/'

group data
mutant "own check bits written into the frame" -e '/^struct sdsl_data_written ref_data_write/,/^}/s/^    result.crc = due_crc(&d);/& size_t p[6] = {12*size+20, 12*size+21, 24*size+30, 24*size+31, 36*size+40, 36*size+41}; for (int j = 0; j < 6; j++) frame[p[j]\/8] = (frame[p[j]\/8] \& ~(1 << p[j]%8)) | (result.crc >> (5-j) \& 1) << p[j]%8;/'
mutant "check bits compared with those in the same frame" -e '/^static uint32_t judge_data/,/^}/s/^    if (due_crc(d) != next_crc) {/    next_crc = carried_crc(d); if (due_crc(d) != next_crc) {/'
mutant "stuffing bits covered" -e '/^static void deal_letter/,/^}/s/bool stuffing = .*/bool stuffing = false;/'
mutant "sbid not covered" -e "/^static void deal_letter/,/^}/s/letter != 'c' \&\&/letter != 'c' \&\& letter != 'i' \&\&/"
mutant "spa not covered" -e "/^static void deal_letter/,/^}/s/bool stuffing = .*/bool stuffing = letter == 'x';/"
mutant "sync word covered" -e "/^static void deal_letter/,/^}/s/letter != 's' \&\& //"
mutant "crc bits covered" -e "/^static void deal_letter/,/^}/s/letter != 'c' \&\& //"
mutant "crc6 written first (two lines)" -e 's/overhead.crc \/ 32 % 2/overhead.crc % 2/' -e 's/overhead.crc \*= 2;/overhead.crc \/= 2;/'
mutant "crc6 read first" -e "s/^        crc = 2 \* crc + (d->number\['c'\] >> i) % 2;/        crc = d->number['c'];/"
mutant "crc6 as the coefficient of X^5" -e '/^static uint32_t due_crc/,/^}/s/rest\[m + i\]/rest[m + 7 - i]/'
mutant "six crc bits in one row" -e 's/"eeeeccfiee", "eeeeccfeei", "eeeecceeee"/"eeeecccccc", "fieeeeeefe", "eieeeeeeee"/'
mutant "sbid2 at 24k+34" -e 's/"eeeeccfeei"/"eeeeccfiee"/'
mutant "segd taken for ps" -e "/^struct sdsl_data_fields ref_data_read/,/^}/s/fields.overhead.indicators = d.number\['f'\];/fields.overhead.indicators = d.number['f'] % 4 + d.number['f'] \/ 8 * 4 + d.number['f'] \/ 4 % 2 * 8;/"
mutant "another divisor, X^6 + X^5 + 1" -e '/^static uint32_t due_crc/,/^}/s/rest\[i + 5\]/rest[i + 1]/g'
mutant "k a multiple of 8" -e '/^static bool is_data_size/,/^}/s/^    return .*/    return n >= 3 \&\& n <= 36 \&\& i == 0;/'
mutant "i = 2 at n = 36 taken" -e '/^static bool is_data_size/,/^}/s/i <= 1/i <= 2/'
mutant "n = 2 taken" -e '/^static bool is_data_size/,/^}/s/n >= 3/n >= 2 \&\& size >= 23/'
mutant "six times the size runs over" -e '/^static bool is_data_payload/,/^}/s/6 \* (uint64_t)size/(uint32_t)(6 * size)/'
mutant "a longer payload taken" -e '/^static bool is_data_payload/,/^}/s/payload_len ==/payload_len >=/'
mutant "one room for both forms" -e '/^static bool is_data_room/,/^}/s/return frame_len == 1740;/return frame_len == 1741;/'
mutant "either room for both forms" -e '/^static bool is_data_room/,/^}/s/return frame_len == 1740;/return frame_len == 1740 || frame_len == 1741;/'
mutant "a room of 6k + 7 octets taken" -e '/^struct sdsl_data_written ref_data_write/,/^}/s/^    if (!is_data_room(form, frame_len) /    if ((!is_data_room(form, frame_len) \&\& frame_len != 6 * (size_t)size + 7) /'
mutant "an unknown form has any room" -e '/^static bool is_data_room/,/^}/s/^    return frame_len == 1740 || .*/    return true;/'
mutant "a form taken as one octet" -e '/^static uint32_t judge_data/,/^}/s/^    if (!is_data_room/    form %= 256; if (!is_data_room/'
mutant "ones behind the payload where nothing is stuffed (two lines)" -e 's/overhead.stuffing == 4 ? 63 : 0;/overhead.stuffing == 4 ? 63 : 60;/' -e 's/size_t tail = synchronous ? 2 : overhead.stuffing;/size_t tail = synchronous ? 2 : 4;/'
mutant "sbid1 alone looked at (two lines)" -e "/^static uint32_t judge_data/,/^}/s/d->number\['i'\] != 0/d->number['i'] % 2 != 0/" -e "/^static uint32_t judge_data/,/^}/s/d->number\['i'\] != 3/false/"
mutant "sbid1 and sbid2 never different" -e "/^static uint32_t judge_data/,/^}/s/d->number\['i'\] != 3/false/"
mutant "stuffing bits not looked at" -e "/^static uint32_t judge_data/,/^}/s/d->number\['x'\] != 15/false/"
mutant "stuffing bits zero" -e 's/overhead.stuffing == 4 ? 63 : 0;/overhead.stuffing == 4 ? 3 : 0;/'
mutant "sbid looked at in the synchronous form" -e '/^static uint32_t judge_data/,/^}/s/form == SDSL_PLESIOCHRONOUS && //'
mutant "stuffing ignored in the synchronous form" -e 's/(synchronous || overhead.stuffing != 4)/!synchronous \&\& overhead.stuffing != 4/'
mutant "two stuffing bits taken" -e 's/(synchronous || overhead.stuffing != 4)/(synchronous || overhead.stuffing % 2 == 1 || overhead.stuffing > 4)/'
mutant "spare bits of the plesiochronous form refused" -e 's/(synchronous && overhead.spare > 15)/overhead.spare > 15/'
mutant "spare bits of the plesiochronous form handed back" -e "/^struct sdsl_data_fields ref_data_read/,/^}/s/^        fields.overhead.stuffing = /        fields.overhead.spare = d.number['i']; fields.overhead.stuffing = /"
mutant "checks in another order: 6 before 9" -e '/^static uint32_t judge_data/,/^}/s/^    if (form == SDSL_PLESIOCHRONOUS/    for (size_t j = 6 * size + 7; j < frame_len; j++) if (frame[j] != 0) return SDSL_BAD_PAD; &/'
mutant "checks in another order: 7 before 6" -e '/^static uint32_t judge_data/,/^}/s/^    size_t n = d->frame_bits;/    struct dealt e = *d; if (due_crc(\&e) != next_crc) return SDSL_BAD_CHECK; &/'
mutant "checks in another order: 9 before 5" -e "/^static uint32_t judge_data/,/^}/s/^    for (size_t n = 1; n <= 14; n++) {/    deal(form, size, 0, frame, d); if (form == 1 \&\& d->number['i'] % 3 != 0) return SDSL_BAD_STUFFING; &/"
mutant "checks in another order: 9 before 4" -e '/^struct sdsl_data_written ref_data_write/,/^}/s/^    bool synchronous = .*/& if (overhead.stuffing > 4) { result.answer = SDSL_BAD_STUFFING; return result; }/'
mutant "checks in another order: 2 before 1" -e '/^static uint32_t judge_data/,/^}/s/^    if (!is_data_room/    if (form > 1) return SDSL_UNKNOWN; &/'
mutant "checks in another order: 4 before 2" -e '/^static uint32_t judge_data/,/^}/s/^    if (!is_data_form/    if (!is_data_size(size)) return SDSL_OUT_OF_RANGE; &/'
mutant "next_crc cut to six bits" -e '/^static uint32_t judge_data/,/^}/s/ || next_crc > 63/ || (next_crc %= 64) > 63/'
mutant "an eoc of 21 bits taken" -e 's/overhead.eoc > 1048575/overhead.eoc > 2097151/'
mutant "sync word last bit first" -e '/^static uint32_t judge_data/,/^}/s/(sync >> (n - 1))/(sync >> (14 - n))/'
mutant "payload octets written last bit first" -e 's/data_bit(payload, payload_bits)/data_bit(payload, payload_bits + 7 - 2 * ((payload_bits - 1) % 8))/'
mutant "payload octets read last bit first" -e 's/^    pack(d.payload, d.payload_bits, payload);/    for (size_t p = 1; p <= d.payload_bits; p += 8) for (int j = 0; j < 4; j++) { uint8_t t = d.payload[p + j]; d.payload[p + j] = d.payload[p + 7 - j]; d.payload[p + 7 - j] = t; } &/'
mutant "the second block read one bit early" -e '/^static void deal(/,/^}/s/data_bit(frame, n + i)/data_bit(frame, n + i - (row == 1))/'
mutant "the second block written one bit early" -e '/^struct sdsl_data_written ref_data_write/,/^}/s/^    struct dealt d;/    uint8_t t[2] = {data_bit(frame, 12 * size + 26), data_bit(frame, 12 * size + 27)}; for (size_t p = 0; p < 2; p++) { n = 12 * size + 25 + p; frame[n \/ 8] \&= ~(1 << n % 8); put_next(frame, \&n, t[1 - p]); } &/'
mutant "the room behind not cleared" -e '/^struct sdsl_data_written ref_data_write/,/^}/s/i < frame_len; i++/i < (48 * size + 57) \/ 8; i++/'
mutant "the room not looked at to its end" -e '/^static uint32_t judge_data/,/^}/s/i < frame_len; i++/i < frame_len - 1; i++/'
mutant "the bits beside the frame's last not looked at" -e '/^static uint32_t judge_data/,/^}/s/^        if (data_bit(frame, n) != 0) {/        if (false) {/'
mutant "one octet too many written" -e '/^struct sdsl_data_written ref_data_write/,/^}/s/^    struct dealt d;/    frame[frame_len] ^= 1; &/'
mutant "a const buffer written" -e '/^struct sdsl_data_written ref_data_write/,/^}/s/^    struct dealt d;/    ((uint8_t *)payload)[0] ^= 1; &/'
mutant "payload written before a refusal" -e '/^struct sdsl_data_fields ref_data_read/,/^}/s/^    if (fields.answer != SDSL_DONE) {/    if (fields.answer > 4) pack(d.payload, 8, payload); &/'
mutant "check bits given with a refusal" -e '/^struct sdsl_data_written ref_data_write/,/^}/s/^        result.answer = SDSL_BAD_STUFFING;/        result.crc = overhead.crc; &/'
mutant "overhead given with a refusal" -e '/^struct sdsl_data_fields ref_data_read/,/^}/s/^    if (fields.answer != SDSL_DONE) {/    if (fields.answer == SDSL_BAD_CHECK) fields.overhead.crc = carried_crc(\&d); &/'
mutant "check bits refused of a frame with wrong stuffing" -e "/^struct sdsl_data_crcs ref_data_crc/,/^}/s/^        result.carried = /        if (form == 1 \&\& d.number['i'] % 3 != 0) { result.answer = SDSL_BAD_STUFFING; return result; } &/"

group eoc
within ref_eoc_write "source and destination exchanged, written" 's/16 \* source + destination/16 * destination + source/'
within message_of "source and destination exchanged, read" 's/plain\[0\] \/ 16, plain\[0\] % 16/plain[0] % 16, plain[0] \/ 16/'
within ref_eoc_write "a source cut to four bits" 's/source > 15 || //'
within ref_eoc_write "a destination cut to four bits (two lines)" 's/destination > 15 || //' 's/source + destination/source + destination % 16/'
within ref_eoc_write "a number cut to an octet" 's/ || number > 255//'
within ref_eoc_write "source F refused" 's/source > 15/source > 14/'
within ref_eoc_write "destinations D and E refused" 's/destination > 15/destination > 15 || destination == 13 || destination == 14/'
within ref_eoc_write "excluded numbers refused, written" 's/number > 255/number % 128 > 124/'
within judge_message "excluded numbers refused, read" 's/^    return SDSL_DONE;/    return plain[1] % 128 > 124 ? SDSL_OUT_OF_RANGE : SDSL_DONE;/'
within check_sequence "check sequence high octet first" 's/pack(c, 16, two);/pack(c + 8, 8, two); pack(c, 8, two + 1);/'
within check_sequence "check sequence not complemented" 's/(uint8_t)(1 - rest\[m + i\])/rest[m + i]/'
within check_sequence "check sequence started at zero" 's/rest\[i\] = (uint8_t)(1 - rest\[i\]);/;/'
within check_sequence "check sequence by another divisor" 's/rest\[i + 11\] = .*/rest[i + 10] = (uint8_t)((rest[i + 10] + rest[i]) % 2);/'
within check_sequence "check sequence with each octet's highest bit first" 's/unpack(octets, m, rest);/for (size_t i = 1; i <= m; i++) rest[i] = octets[(i - 1) \/ 8] >> (7 - (i - 1) % 8) \& 1;/'
within check_sequence "check sequence the coefficient of 1 first" 's/c\[i\] = /c[17 - i] = /'
within ref_eoc_write "check sequence over the escaped octets, written" 's/check_sequence(plain, count, plain + count);/uint8_t e[150]; check_sequence(e, put_escapes(plain, count, e), plain + count);/'
within judge_message "check sequence over the escaped octets, read" 's/check_sequence(plain, \*count - 2, due);/uint8_t e[150]; check_sequence(e, put_escapes(plain, *count - 2, e), due);/'
within judge_message "check sequence without the addresses" 's/check_sequence(plain, \*count - 2, due);/check_sequence(plain + 1, *count - 3, due);/'
within judge_message "check sequence taken in either order" 's/^    if (plain\[\*count - 2\] != /    if (plain[*count - 2] == due[1] \&\& plain[*count - 1] == due[0]) return SDSL_DONE; &/'
within judge_message "check sequence taken complemented or not" 's/^    if (plain\[\*count - 2\] != /    if (plain[*count - 2] + due[0] == 255 \&\& plain[*count - 1] + due[1] == 255) return SDSL_DONE; &/'
within judge_message "high octet of the check sequence not looked at" 's/ || plain\[\*count - 1\] != due\[1\]//'
within judge_message "check sequence not looked at where there are no contents" 's/^    check_sequence(plain/    if (*count == 4) return SDSL_DONE; &/'
within ref_eoc_write "check sequence not escaped" 's/size_t n = put_escapes(.*/size_t n = put_escapes(plain, count, inner); inner[n++] = plain[count]; inner[n++] = plain[count + 1];/'
within ref_eoc_write "addresses not escaped" 's/size_t n = put_escapes(.*/inner[0] = plain[0]; size_t n = 1 + put_escapes(plain + 1, count + 1, inner + 1);/'
within ref_eoc_write "number not escaped" 's/size_t n = put_escapes(.*/size_t n = put_escapes(plain, 1, inner); inner[n++] = plain[1]; n += put_escapes(plain + 2, count, inner + n);/'
within ref_eoc_write "last octet before the check sequence not escaped" 's/size_t n = put_escapes(.*/size_t n = put_escapes(plain, count - 1, inner); inner[n++] = plain[count - 1]; n += put_escapes(plain + count, 2, inner + n);/'
within put_escapes "5E and 5D exchanged, written" 's/? 0x5E : 0x5D/? 0x5D : 0x5E/'
within take_escapes "5E and 5D exchanged, read" 's/? EOC_FLAG : EOC_ESCAPE/? EOC_ESCAPE : EOC_FLAG/'
within put_escapes "7D not escaped" 's/ || plain\[i\] == EOC_ESCAPE//'
within put_escapes "7F escaped too (two lines)" 's/ == EOC_ESCAPE) {/ == EOC_ESCAPE || plain[i] == 0x7F) {/' 's/plain\[i\] == EOC_FLAG ? 0x5E : 0x5D/plain[i] ^ 0x20/'
within put_escapes "control characters escaped too (two lines)" 's/ == EOC_ESCAPE) {/ == EOC_ESCAPE || plain[i] < 0x20) {/' 's/plain\[i\] == EOC_FLAG ? 0x5E : 0x5D/plain[i] ^ 0x20/'
mutant "any octet behind 7D taken, xor 20 (two lines)" -e '/^static bool has_escapes/,/^}/s/(inner\[i + 1\] != 0x5E && inner\[i + 1\] != 0x5D)/false/' -e '/^static size_t take_escapes/,/^}/s/inner\[i\] == 0x5E ? EOC_FLAG : EOC_ESCAPE/inner[i] ^ 0x20/'
mutant "7D 5F taken for 7F (two lines)" -e '/^static bool has_escapes/,/^}/s/ != 0x5D)/ != 0x5D \&\& inner[i + 1] != 0x5F)/' -e '/^static size_t take_escapes/,/^}/s/inner\[i\] == 0x5E ? EOC_FLAG : EOC_ESCAPE/inner[i] ^ 0x20/'
within has_escapes "7D 7D taken for 7D" 's/ != 0x5D)/ != 0x5D \&\& inner[i + 1] != EOC_ESCAPE)/'
within has_escapes "7D before the closing flag taken" 's/i + 1 == n || (/i + 1 < n \&\& (/'
within has_flags "closing flag not asked for" 's/ || octets\[len - 1\] != EOC_FLAG//'
within has_flags "opening flag not asked for" 's/octets\[0\] != EOC_FLAG || //'
within has_flags "a flag inside not looked for" 's/if (octets\[i\] == EOC_FLAG) {/if (false) {/'
within has_flags "a flag next to the opening one not looked for" 's/size_t i = 1; i < len - 1/size_t i = 2; i < len - 1/'
within judge_message "one flag serving as both" 's/^    if (!has_flags/    if (len == 1 \&\& octets[0] == EOC_FLAG) return SDSL_BAD_SIZE; &/'
within judge_message "no octets at all called too short" 's/^    if (!has_flags/    if (len == 0) return SDSL_BAD_SIZE; &/'
within judge_message "more opening flags taken" 's/^    if (!has_flags/    while (len > 2 \&\& octets[0] == EOC_FLAG \&\& octets[1] == EOC_FLAG) { octets++; len--; } &/'
within judge_message "more closing flags taken" 's/^    if (!has_flags/    while (len > 2 \&\& octets[len - 1] == EOC_FLAG \&\& octets[len - 2] == EOC_FLAG) len--; &/'
within judge_message "75 counted with the check sequence, read" 's/\*count <= EOC_PLAIN_MAX/*count <= 75/'
within ref_eoc_write "75 counted with the check sequence, written" 's/contents_len > EOC_CONTENTS/contents_len > 71/'
within judge_message "75 counted after escaping, read" 's/\*count <= EOC_PLAIN_MAX/len - 2 <= EOC_PLAIN_MAX/'
within ref_eoc_write "75 counted after escaping, written" 's/^    if (contents_len > EOC_CONTENTS) {/    size_t e = contents_len; for (size_t i = 0; i < contents_len \&\& i < 73; i++) e += contents[i] == 0x7E || contents[i] == 0x7D; if (e > 73) {/'
mutant "76 octets taken" -e 's/^#define EOC_PLAIN_MAX 77/#define EOC_PLAIN_MAX 78/'
within judge_message "too short at 3 only" 's/>= EOC_PLAIN_MIN/>= 3/'
within judge_message "too short at 5 already" 's/>= EOC_PLAIN_MIN/>= 5/'
within judge_message "plain octets counted in one octet" 's/^    bool fits/    *count %= 256; &/'
within judge_message "plain octets counted in 16 bits" 's/^    bool fits/    *count %= 65536; &/'
within ref_eoc_write "the length of contents cut to an octet" 's/^    if (contents_len > EOC_CONTENTS) {/    contents_len %= 256; &/'
within ref_eoc_write "the length of contents cut to 32 bits" 's/^    if (contents_len > EOC_CONTENTS) {/    contents_len %= 4294967296; &/'
within ref_eoc_write "a room of 157 taken" 's/room_len != EOC_ROOM/(room_len != EOC_ROOM \&\& room_len != 157)/'
within ref_eoc_write "any longer room taken, written" 's/room_len != EOC_ROOM/room_len < EOC_ROOM/'
within ref_eoc_write "a room's length cut to 32 bits, written" 's/room_len != EOC_ROOM/(uint32_t)room_len != EOC_ROOM/'
within ref_eoc_read "any longer room taken, read" 's/contents_len != EOC_CONTENTS/contents_len < EOC_CONTENTS/'
within ref_eoc_read "a room's length cut to 32 bits, read" 's/contents_len != EOC_CONTENTS/(uint32_t)contents_len != EOC_CONTENTS/'
within judge_message "checks in another order: 11 before 10" 's/^    if (!has_flags/    if (len > 2 \&\& !has_escapes(octets + 1, len - 2)) return SDSL_BAD_ESCAPE; &/'
within judge_message "checks in another order: 11 before 10 where it stands first" 's/^    if (!has_flags/    for (size_t i = 1; i + 1 < len \&\& octets[0] == EOC_FLAG \&\& octets[i] != EOC_FLAG; i++) if (octets[i] == EOC_ESCAPE \&\& octets[i + 1] != 0x5E \&\& octets[i + 1] != 0x5D) return SDSL_BAD_ESCAPE; &/'
within judge_message "checks in another order: 12 before 11" 's/^    if (!has_escapes/    uint8_t *x = room_for(len, 1); size_t k = take_escapes(octets + 1, len - 2, x); free(x); if (k < 4 || k > 77) return SDSL_BAD_SIZE; &/'
within judge_message "checks in another order: 12 before 10" 's/^    if (!has_flags/    if (len < 6) return SDSL_BAD_SIZE; &/'
within judge_message "checks in another order: 7 before 12" 's/^    free(all);/    uint8_t d[2]; if (*count >= 2) { check_sequence(all, *count - 2, d); if (all[*count - 2] != d[0] || all[*count - 1] != d[1]) { free(all); return SDSL_BAD_CHECK; } } &/'
within ref_eoc_write "checks in another order: 4 before 1, written" 's/^    if (room_len != EOC_ROOM) {/    if (source > 15) { result.answer = SDSL_OUT_OF_RANGE; return result; } &/'
within ref_eoc_write "checks in another order: 12 before 4, written" 's/^    if (source > 15 /    if (contents_len > EOC_CONTENTS) { result.answer = SDSL_BAD_SIZE; return result; } &/'
within ref_eoc_write "checks in another order: 12 before 1, written" 's/^    if (room_len != EOC_ROOM) {/    if (contents_len > EOC_CONTENTS) { result.answer = SDSL_BAD_SIZE; return result; } &/'
within ref_eoc_read "checks in another order: 10 before 1, read" 's/^    if (contents_len != EOC_CONTENTS) {/    if (octets_len < 1000 \&\& !has_flags(octets, octets_len)) { message.answer = SDSL_BAD_FLAG; return message; } &/'
within ref_eoc_hand_up "checks in another order: 4 before 1, handed up" 's/^    if (units_len % EOC_UNIT != 0) {/    if (units_len > 0 \&\& units[0] > 15) { result.answer = SDSL_OUT_OF_RANGE; return result; } &/'
within ref_eoc_hand_up "checks in another order: 10 before 4, handed up" 's/units\[at\] > 15/units[at] > 15 \&\& has_flags(octets, octets_len)/'
within ref_eoc_hand_up "checks in another order: 4 last, handed up" 's/units\[at\] > 15/units[at] > 15 \&\& judge_message(octets, octets_len, (uint8_t[77]){0}, \&(size_t){0}) == SDSL_DONE/'
within is_meant "destination 0 not answered" 's/ || destination == 0//'
within is_meant "destination F not answered" 's/ || destination == 15//'
within is_meant "own address 0 answers to everything" 's/destination == own/destination == own || own == 0/'
within ref_eoc_hand_up "source looked at instead of destination" 's/is_meant(units\[at\], message.destination)/is_meant(units[at], message.source)/'
within ref_eoc_hand_up "contents stored before the destination is looked at" 's/^        if (is_meant(/        put_contents(plain, count, units + at + 6); &/'
within ref_eoc_hand_up "only the first record that is meant written" 's/is_meant(units\[at\], message.destination)/result.units == 0 \&\& &/'
within ref_eoc_hand_up "only a record without a message written" 's/is_meant(units\[at\], message.destination)/units[at + 1] == 0 \&\& &/'
within ref_eoc_hand_up "own address overwritten" 's/units\[at + 1\] = 1;/units[at] = (uint8_t)message.destination; &/'
within ref_eoc_hand_up "present mark not set" 's/units\[at + 1\] = 1;/;/'
within ref_eoc_hand_up "own address for the destination in the record" 's/units\[at + 3\] = (uint8_t)message.destination;/units[at + 3] = units[at];/'
within ref_eoc_hand_up "destination for the source in the record" 's/units\[at + 2\] = (uint8_t)message.source;/units[at + 2] = (uint8_t)message.destination;/'
within ref_eoc_hand_up "addresses and number counted into the record's length" 's/(uint8_t)message.length;/(uint8_t)(message.length + 2);/'
within ref_eoc_hand_up "own address over 15 taken" 's/units\[at\] > 15/false/'
within ref_eoc_hand_up "own address of 16 taken" 's/units\[at\] > 15/units[at] > 16/'
within ref_eoc_hand_up "only the first own address looked at" 's/units\[at\] > 15/at == 0 \&\& &/'
within ref_eoc_hand_up "all records counted" 's/result.units++;/result.units = units_len \/ EOC_UNIT;/'
within ref_eoc_hand_up "records counted as one" 's/result.units++;/result.units = 1;/'
within ref_eoc_hand_up "records counted in one octet" 's/result.units++;/result.units = (result.units + 1) % 256;/'
within ref_eoc_hand_up "a part of a record left over" 's/^    if (units_len % EOC_UNIT != 0) {/    units_len -= units_len % EOC_UNIT; &/'
within ref_eoc_hand_up "the length of units cut to 32 bits" 's/^    if (units_len % EOC_UNIT != 0) {/    units_len %= 4294967296; &/'
within ref_eoc_hand_up "no units refused" 's/^    if (units_len % EOC_UNIT != 0) {/    if (units_len == 0 || units_len % EOC_UNIT != 0) {/'
within ref_eoc_hand_up "with no units the message not looked at" 's/^    result.answer = judge_message/    if (units_len == 0) return result; &/'
within ref_eoc_hand_up "a message that no unit takes refused" 's/^    return result;/    if (result.units == 0) result.answer = SDSL_OUT_OF_RANGE; &/'
within put_contents "contents not zeroed behind" 's/: 0;/: contents[i];/'
within put_contents "contents from one octet too early" 's/plain\[2 + i\]/plain[1 + i]/'
within put_contents "check sequence behind the contents" 's/i < count - 4/i < count - 2/'
within message_of "check sequence counted into the length" 's/count - 4/count - 2/'
within ref_eoc_write "room not zeroed behind" 's/i < EOC_ROOM; i++/i < n + 2; i++/'
within ref_eoc_write "one octet too many written" 's/^    room\[0\] = EOC_FLAG;/    room[EOC_ROOM] ^= 1; &/'
within ref_eoc_write "a const buffer written, written" 's/^    room\[0\] = EOC_FLAG;/    if (contents_len > 8) ((uint8_t *)contents)[0] ^= 1; &/'
within ref_eoc_read "a const buffer written, read" 's/^    message = message_of/    if (octets_len > 16) ((uint8_t *)octets)[1] ^= 1; &/'
within ref_eoc_write "the length of a form given with a refusal" 's/^        result.answer = SDSL_BAD_SIZE;/        result.length = 156; &/'
within ref_eoc_write "the room written with a refusal" 's/^        result.answer = SDSL_BAD_SIZE;/        room[0] = EOC_FLAG; &/'
within ref_eoc_read "contents written with a refusal" 's/^    if (message.answer != SDSL_DONE) {/    if (message.answer == SDSL_BAD_CHECK) put_contents(plain, count, contents); &/'
within ref_eoc_read "a number given with a refusal" 's/^    if (message.answer != SDSL_DONE) {/    if (message.answer == SDSL_BAD_CHECK) message.number = plain[1]; &/'
within ref_eoc_hand_up "a record written with a refusal" 's/^    if (result.answer != SDSL_DONE) {/    if (result.answer == SDSL_BAD_CHECK \&\& units_len > 0) units[1] = 1; &/'

group scrambler
mutant "taps exchanged" -e 's/end == SDSL_LTU ? 5 : 18/end == SDSL_LTU ? 18 : 5/'
within run_behind_sync "clocked through the sync bits, there and back" 's/return run(end, state, in + 14, LAST_BIT - 14, out + 14);/return run(end, state, in, LAST_BIT, out);/'
within run_behind_sync "clocked through the pad, there and back" 's/return run(end, state, in + 14, LAST_BIT - 14, out + 14);/return run(end, state, in + 14, FRAME_BITS - 14, out + 14);/'
back() { within ref_descramble_frame "$@"; }
back "back: clocked through the sync bits" 's/^    result.state = run_behind.*/    for (size_t n = 1; n <= FRAME_BITS; n++) plain[n] = 0; result.state = descramble_bits(end, state, received, LAST_BIT, plain); for (size_t n = 1; n <= 14; n++) plain[n] = received[n];/'
back "back: pad not checked" 's/!all_zero(received, LAST_BIT + 1, FRAME_BITS)/false/'
back "back: the last pad bit not checked" 's/LAST_BIT + 1, FRAME_BITS)/LAST_BIT + 1, FRAME_BITS - 1)/'
back "back: the room's old pad bits left" 's/pack(plain, FRAME_BITS, out)/pack(plain, LAST_BIT, out)/'
back "back: the other end's tap" 's/(descramble_bits, end, /(descramble_bits, 1 - end, /'
back "back: scrambled once more" 's/run_behind_sync(descramble_bits, /run_behind_sync(scramble_bits, /'
back "back: handed on as it came" 's/pack(plain, FRAME_BITS, out)/pack(received, FRAME_BITS, out)/'
back "back: the old state" 's/result.state = run_behind/run_behind/'
back "back: the state of the plain bits" 's/run_behind_sync(descramble_bits, .*/& result.state = 0; for (size_t n = LAST_BIT - 22; n <= LAST_BIT; n++) result.state = 2 * result.state + plain[n];/'
back "back: 0 for the state on a refusal" 's/result = {0, state};/result = {0, 0};/'
back "back: check bits looked at" 's/^    pack(plain, FRAME_BITS, out);/    uint32_t kind; if (judge(plain, \&kind) != SDSL_DONE) { result.answer = SDSL_BAD_CHECK; return result; } &/'
back "back: pad before the state" 's/^    result.answer = judge_scrambler(end, state);/    if (end < 2 \&\& in[528] > 7) { result.answer = SDSL_BAD_PAD; return result; } &/'
back "back: end before lengths" 's/^    if (in_len != 529/    if (end > 1) result.answer = SDSL_UNKNOWN; else if (in_len != 529/'
back "back: a longer room taken" 's/out_len != 529/out_len < 529/'
back "back: one octet too many written" 's/^    pack(plain, FRAME_BITS, out);/& out[529] ^= 1;/'
back "back: the room cleared before a refusal" 's/^    result.answer = judge_scrambler(end, state);/& if (result.answer == SDSL_OUT_OF_RANGE) out[0] = 0;/'
send "there: sent as written, not scrambled" 's/pack(sent, /pack(plain, /'
send "there: clocked through the sync bits" 's/^    result.state = run_behind.*/    for (size_t n = 1; n <= FRAME_BITS; n++) sent[n] = 0; result.state = scramble_bits(end, state, plain, LAST_BIT, sent); for (size_t n = 1; n <= 14; n++) sent[n] = plain[n];/'
send "there: the other end's tap" 's/(scramble_bits, end, /(scramble_bits, 1 - end, /'
send "there: the state of the plain bits" 's/run_behind_sync(scramble_bits, .*/& result.state = 0; for (size_t n = LAST_BIT - 22; n <= LAST_BIT; n++) result.state = 2 * result.state + plain[n];/'
send "there: the old state" 's/result.state = run_behind/run_behind/'
send "there: from the starting state each time" 's/(scramble_bits, end, state, /(scramble_bits, end, 0, /'
send "there: the room's old pad bits left" 's/pack(sent, FRAME_BITS, frame)/pack(sent, LAST_BIT, frame)/'
send "there: a final frame's state not looked at" 's/ || state >= 8388608/ || (training \&\& state >= 8388608)/'
send "there: a final frame's end not looked at" 's/(end != SDSL_LTU/(training \&\& end != SDSL_LTU/'
send "there: a state of 2^23 taken" 's/state >= 8388608/state > 8388608/'
send "there: a state cut to 23 bits" 's/^    bool training/    state %= 8388608; bool training/'
send "there: end taken as one octet" 's/^    bool training/    end %= 256; bool training/'
send "there: state before the end" 's/^    } else if ((kind/    } else if (state >= 8388608) { result.answer = SDSL_OUT_OF_RANGE; &/'
send "there: 0 for the state on a refusal" 's/{SDSL_DONE, state}/{SDSL_DONE, 0}/'
mutant "checks in another order: end before lengths" -e '/^static struct sdsl_scrambled run_octets/,/^}/s/^    if (in_len != out_len/    if (end > 1) result.answer = SDSL_UNKNOWN; else if (in_len != out_len/'
mutant "checks in another order: state before end" -e '/^static uint32_t judge_scrambler/,/^}/s/^    if (end != SDSL_LTU/    if (state >= 8388608) return SDSL_OUT_OF_RANGE; else if (end != SDSL_LTU/'
mutant "the count of octets runs over" -e 's/^    size_t octets_needed = .*/    size_t octets_needed = (bits + 7) \/ 8;/'
mutant "bits past the count cleared" -e '/^static struct sdsl_scrambled run_octets/,/^}/s/^    pack(out_bits, bits, out);/    if (bits % 8) out[bits \/ 8] = 0; pack(out_bits, bits, out);/'
mutant "a refused call hands back 0 as the state" -e '/^static struct sdsl_scrambled run_octets/,/^}/s/^    struct sdsl_scrambled result = {0, state};/    struct sdsl_scrambled result = {0, 0};/'
mutant "right for the first bit, the rest copied" -e '/^static uint32_t scramble_bits/,/^}/s/^        out\[n\] = s\[22 + n\];/        out[n] = n == 1 ? s[22 + n] : f[n];/'
mutant "a scrambler that starts with a one" -e '/^struct sdsl_scrambled ref_scrambler_start/,/^}/s/SDSL_UNKNOWN, 0};/SDSL_UNKNOWN, 1};/'
mutant "a bit of 2 taken" -e '/^static struct sdsl_scrambled_bit run_bit/,/^}/s/bit > 1/bit > 2/'
mutant "descrambling keeps a plain bit in the state" -e '/^static uint32_t descramble_bits/,/^}/s/state_after(s, count)/state_after(s, count) ^ (count > 0 ? out[count] ^ s[22 + count] : 0)/'

group receiver
within is_frame "descrambled with the other end's tap" 's/descramble_bits(end, /descramble_bits(1 - end, /'
within is_frame "the oldest of the 23 bits at weight 1" 's/window\[i\];/window[24 - i];/'
within is_frame "the 23 bits one bit too early" 's/window\[i\];/window[i - 1];/'
within is_frame "the scrambler clocked through the sync bits" 's/window\[i\];/window[14 + i];/'
within is_frame "descrambled with the starting state" 's/descramble_bits(end, state, /descramble_bits(end, 0, /'
within is_frame "sync bits descrambled too" 's/sent + 14, LAST_BIT - 14, plain + 14/sent, LAST_BIT, plain/'
within is_frame "only training frames found" 's/ && !has_sync(sent, final_sync)//'
within is_frame "only final frames found" 's/!has_sync(sent, training_sync) && //'
within is_frame "check bits not looked at" 's/judge(plain, &kind) == SDSL_DONE/true/'
within is_frame "frames with reserved bits not found" 's/== SDSL_DONE;/== SDSL_DONE \&\& all_zero(plain, RESERVED_BIT, CHECK_BIT - 1);/'
within ref_receive "22 bits before a frame enough" 's/place < STATE_BITS/place < 22/'
within ref_receive "24 bits before a frame wanted" 's/place < STATE_BITS/place < 24/'
within ref_receive "no bits before a frame wanted" 's/place < STATE_BITS || //'
within ref_receive "what stood in the line room before the first bit looked at" 's/place < STATE_BITS || place < (int64_t)state.from/state.from > 0 \&\& place < (int64_t)state.from/'
within ref_receive "the place in 32 bits" 's/int64_t place = \(.*\);/int64_t place = (uint32_t)(\1);/'
within ref_receive "the place in 32 bits with a sign" 's/int64_t place = \(.*\);/int64_t place = (int32_t)(\1);/'
within ref_receive "23 new bits wanted behind a frame" 's/(int64_t)state.from)/(int64_t)state.from + (state.from > 0 ? 23 : 0))/'
within ref_receive "the place to go on from not looked at" 's/ || place < (int64_t)state.from//'
within ref_receive "the place to go on from with a sign" 's/(int64_t)state.from)/(int32_t)state.from)/'
within ref_receive "the place to go on from itself not tried" 's/place < (int64_t)state.from/place <= (int64_t)state.from/'
within ref_receive "goes on one bit behind the place" 's/(uint32_t)(last + 1)/(uint32_t)(place + 1)/'
within ref_receive "goes on behind the sync word" 's/(uint32_t)(last + 1)/(uint32_t)(place + 14)/'
within ref_receive "goes on with the frame's last bit" 's/(uint32_t)(last + 1)/(uint32_t)last/'
within ref_receive "goes on one bit too late" 's/(uint32_t)(last + 1)/(uint32_t)(last + 2)/'
within ref_receive "goes on behind the lump" 's/(uint32_t)(last + 1)/(uint32_t)(state.heard + bits)/'
within ref_receive "goes on from the lump where none is given" 's/^    result.state.heard = .*/& if (result.given == 0) result.state.from = result.state.heard;/'
within ref_receive "goes on behind a frame that was refused" 's/^        if (is_frame(/        if (k > 0 \&\& (has_sync(b + 29 + k, training_sync) || has_sync(b + 29 + k, final_sync))) { result.state.from = (uint32_t)last; break; } &/'
within ref_receive "stops at the first sync word that is no frame" 's/^        if (is_frame(/        if (k > 0 \&\& (has_sync(b + 29 + k, training_sync) || has_sync(b + 29 + k, final_sync))) break; &/'
within ref_receive "skips 14 bits behind a sync word that is no frame" 's/^        if (is_frame(/        if (k > 0 \&\& (has_sync(b + 29 + k, training_sync) || has_sync(b + 29 + k, final_sync))) { k += 12; continue; } &/'
within ref_receive "only a frame that ends with the lump found" 's/is_frame(state.end/k + 1 == bits \&\& &/'
within ref_receive "only frames that begin with an octet found" 's/is_frame(state.end/place % 8 == 0 \&\& &/'
within ref_receive "the last of several given" 's/^            break;/            ;/'
within ref_receive "handed out one bit late" 's/b + 7 + k, plain/b + 6 + k, plain/'
within ref_receive "handed out one bit late, with its place (three lines)" 's/b + 7 + k, plain/b + 6 + k, plain/' 's/int64_t last = /&-1 + /' 's/place < STATE_BITS/k == 0 || &/'
within ref_receive "one bit too few kept" 's/pack(b + bits, LINE_BITS, line)/pack(b + bits + (bits > 0), LINE_BITS - 1, line)/'
within ref_receive "one bit too many kept" 's/pack(b + bits, LINE_BITS, line)/pack(b + bits - (bits > 0), LINE_BITS, line)/'
within ref_receive "the lump kept before the line" 's/^    pack(b + bits, LINE_BITS, line);/    uint8_t c[LINE_BITS + 1]; for (size_t i = 1; i <= LINE_BITS; i++) c[i] = i <= bits ? b[LINE_BITS + i] : b[i - bits]; pack(c, LINE_BITS, line);/'
within ref_receive "the line room newest bit first" 's/^    pack(b + bits, LINE_BITS, line);/    uint8_t c[LINE_BITS + 1]; for (size_t i = 1; i <= LINE_BITS; i++) c[i] = b[bits + LINE_BITS + 1 - i]; pack(c, LINE_BITS, line);/'
within ref_receive "the line room not written" 's/^    pack(b + bits, LINE_BITS, line);/    ;/'
within ref_receive "the line room not written where a frame is given" 's/^    pack(b + bits, LINE_BITS, line);/    if (result.given == 0) &/'
within ref_receive "what was heard before a given frame forgotten" 's/^    pack(b + bits, LINE_BITS, line);/    for (size_t i = 0; i < result.state.from - state.heard \&\& result.given == 1; i++) b[LINE_BITS + 1 + i] = 0; &/'
within ref_receive "the rest of the lump lost behind a frame" 's/^    result.state.heard = .*/    bits = result.given == 1 ? result.state.from - state.heard : bits; &/'
within ref_receive "the lump's bits last first" 's/^    unpack(lump, bits, .*/    for (size_t i = 1; i <= bits; i++) b[LINE_BITS + i] = lump[(bits - i) \/ 8] >> (bits - i) % 8 \& 1;/'
within ref_receive "each octet of the lump highest bit first" 's/^    unpack(lump, bits, .*/    for (size_t i = 1; i <= bits; i++) b[LINE_BITS + i] = lump[(i - 1) \/ 8] >> (7 - (i - 1) % 8) \& 1;/'
within ref_receive "the rest of the lump's last octet taken too" 's/^    uint8_t \*b = /    bits = (bits + 7) \/ 8 * 8; &/'
within ref_receive "bits not counted" 's/^    result.state.heard = .*/    ;/'
within ref_receive "bits not counted where a frame is given" 's/^    result.state.heard = /    if (result.given == 0) &/'
within ref_receive "octets counted" 's/(uint32_t)(state.heard + bits)/(uint32_t)(state.heard + (bits + 7) \/ 8 * 8)/'
within ref_receive "places counted from 1" 's/result.place = (uint32_t)place;/result.place = (uint32_t)(place + 1);/'
within ref_receive "the place of the frame's last bit" 's/result.place = (uint32_t)place;/result.place = (uint32_t)last;/'
within ref_receive "the place behind the frame" 's/result.place = (uint32_t)place;/result.place = (uint32_t)(last + 1);/'
within ref_receive "the place of the bit behind the sync word" 's/result.place = (uint32_t)place;/result.place = (uint32_t)(place + 14);/'
within ref_receive "given not said" 's/^            result.given = 1;/            ;/'
within ref_receive "the place of the line's end where none is given" 's/^    result.state.heard = .*/& if (result.given == 0) result.place = result.state.heard;/'
within ref_receive "the frame room written for what is no frame" 's/^        if (is_frame(/        plain[1] = 2; is_frame(state.end, b + 7 + k, plain); if (plain[1] != 2) pack(plain, FRAME_BITS, frame); &/'
within ref_receive "the frame room cleared where none is given" 's/^    result.state.heard = .*/& for (size_t i = 0; i < 529 \&\& result.given == 0; i++) frame[i] = 0;/'
within ref_receive "the frame room cleared by an empty lump" 's/^    result.state.heard = .*/& for (size_t i = 0; i < 529 \&\& bits == 0; i++) frame[i] = 0;/'
within ref_receive "the frame handed out scrambled" 's/pack(plain, FRAME_BITS, frame);/frame[528] = 0; pack(b + 30 + k, LAST_BIT, frame);/'
within ref_receive "the frame not handed out" 's/^            pack(plain, FRAME_BITS, frame);/            ;/'
within ref_receive "pad left as it was" 's/pack(plain, FRAME_BITS, frame);/pack(plain, LAST_BIT, frame);/'
within ref_receive "pad not zero" 's/pack(plain, FRAME_BITS, frame);/& frame[528] |= 128;/'
within ref_receive "one octet too many of the frame written" 's/pack(plain, FRAME_BITS, frame);/& frame[529] ^= 1;/'
within ref_receive "one octet too many of the line written" 's/^    pack(b + bits, LINE_BITS, line);/& line[532] ^= 1;/'
within ref_receive "a const buffer written" 's/^    unpack(lump, bits, .*/& if (bits > 8) ((uint8_t *)lump)[0] ^= 1;/'
within judge_lump "a total of 4,294,967,295 refused" 's/in_all > 4294967295/in_all >= 4294967295/'
within judge_lump "a total of 4,294,967,296 taken" 's/in_all > 4294967295/in_all > 4294967296/'
within judge_lump "the total in 32 bits" 's/(uint64_t)state.heard + bits/(uint32_t)(state.heard + bits)/'
within judge_lump "the total with a sign" 's/in_all > 4294967295/in_all > 2147483647/'
within judge_lump "4,096 bits refused" 's/bits > LUMP_BITS_MAX/bits >= LUMP_BITS_MAX/'
within judge_lump "4,097 bits taken" 's/bits > LUMP_BITS_MAX/bits > LUMP_BITS_MAX + 1/'
within judge_lump "an empty lump refused" 's/^    if (needed > lump_len/    if (bits == 0) return SDSL_BAD_LENGTH; &/'
within judge_lump "a lump of no octets refused" 's/^    if (needed > lump_len/    if (lump_len == 0) return SDSL_BAD_LENGTH; &/'
within ref_receive "an empty lump takes the stream for over" 's/^    uint8_t \*b = /    if (bits == 0) { result.state.heard = 0; result.state.from = 0; return result; } &/'
within judge_lump "a count over the lump by one taken" 's/needed > lump_len/bits > 8 * lump_len + 1/'
within judge_lump "a count over the lump by up to seven taken" 's/size_t needed = .*/size_t needed = whole_octets;/'
within judge_lump "the count of octets running over" 's/size_t needed = .*/size_t needed = (bits + 7) \/ 8;/'
within judge_lump "eight times the lump running over" 's/needed > lump_len/bits > 8 * lump_len/'
within judge_lump "a lump that is longer than its bits refused" 's/needed > lump_len/needed != lump_len/'
within ref_receive "the count cut to 32 bits" 's/^    struct sdsl_received result = .*/    bits %= 4294967296; &/'
within judge_lump "a frame room of 530 taken" 's/frame_len != 529/(frame_len != 529 \&\& frame_len != 530)/'
within judge_lump "a frame room of 528 taken" 's/frame_len != 529/(frame_len != 529 \&\& frame_len != 528)/'
within judge_lump "any longer frame room taken" 's/frame_len != 529/frame_len < 529/'
within judge_lump "the frame room's length cut to 32 bits" 's/frame_len != 529/(uint32_t)frame_len != 529/'
within judge_lump "a line room of 531 taken" 's/line_len != LINE_OCTETS/(line_len != LINE_OCTETS \&\& line_len != 531)/'
within judge_lump "a line room of 533 taken" 's/line_len != LINE_OCTETS/(line_len != LINE_OCTETS \&\& line_len != 533)/'
within judge_lump "any longer line room taken" 's/line_len != LINE_OCTETS/line_len < LINE_OCTETS/'
within judge_lump "the line room's length cut to 32 bits" 's/line_len != LINE_OCTETS/(uint32_t)line_len != LINE_OCTETS/'
within judge_lump "an unknown end taken" 's/state.end != SDSL_LTU && state.end != SDSL_NTU/false/'
within judge_lump "an end of 2 taken" 's/state.end != SDSL_NTU/state.end > 2/'
within judge_lump "an end cut to an octet" 's/^    if (state.end != SDSL_LTU/    state.end %= 256; &/'
within ref_receive_start "an unknown end taken at the start" 's/end != SDSL_LTU && end != SDSL_NTU/false/'
within ref_receive_start "an end cut to an octet at the start" 's/^    if (end != SDSL_LTU/    end %= 256; &/'
within ref_receive_start "a refused start that gives another end" 's/^        result.answer = SDSL_UNKNOWN;/& result.state.end = SDSL_LTU;/'
within ref_receive_start "a start with a bit heard" 's/{end, 0, 0}/{end, 1, 0}/'
within ref_receive_start "a start that goes on from 23" 's/{end, 0, 0}/{end, 0, 23}/'
within ref_receive_start "a start with the other end" 's/{end, 0, 0}/{end < 2 ? 1 - end : end, 0, 0}/'
within judge_lump "checks in another order: 2 before 1" 's/^    if (needed > lump_len/    if (state.end > 1) return SDSL_UNKNOWN; &/'
within judge_lump "checks in another order: 4 for the lump before 2" 's/^    if (state.end != SDSL_LTU/    if (bits > LUMP_BITS_MAX) return SDSL_OUT_OF_RANGE; &/'
within judge_lump "checks in another order: 4 for the total before 2" 's/^    if (state.end != SDSL_LTU/    if (state.heard + bits > 4294967295) return SDSL_OUT_OF_RANGE; &/'
within judge_lump "checks in another order: 4 for the lump before 1" 's/^    if (needed > lump_len/    if (bits > LUMP_BITS_MAX) return SDSL_OUT_OF_RANGE; &/'
within judge_lump "checks in another order: 4 for the total before 1" 's/^    if (needed > lump_len/    if (state.heard + bits > 4294967295) return SDSL_OUT_OF_RANGE; &/'
within judge_lump "checks in another order: the frame room last (two lines)" 's/^    return SDSL_DONE;/    return frame_len != 529 ? SDSL_BAD_LENGTH : SDSL_DONE;/' 's/ || frame_len != 529//'
within ref_receive "given said with a refusal" 's/^    if (result.answer != SDSL_DONE) {/    result.given = result.answer == SDSL_OUT_OF_RANGE; &/'
within ref_receive "a place given with a refusal" 's/^    if (result.answer != SDSL_DONE) {/    if (result.answer == SDSL_UNKNOWN) result.place = state.from; &/'
within ref_receive "bits counted with a refusal" 's/^    if (result.answer != SDSL_DONE) {/    if (result.answer == SDSL_OUT_OF_RANGE \&\& bits <= 4096) result.state.heard = 4294967295; &/'
within ref_receive "a state of zeros with a refusal" 's/^    if (result.answer != SDSL_DONE) {/    if (result.answer != SDSL_DONE) result.state = (struct sdsl_receiver){0, 0, 0}; &/'
within ref_receive "the line room written with a refusal" 's/^    if (result.answer != SDSL_DONE) {/    if (result.answer == SDSL_OUT_OF_RANGE) line[531] ^= 128; &/'
within ref_receive "the frame room written with a refusal" 's/^    if (result.answer != SDSL_DONE) {/    if (result.answer == SDSL_OUT_OF_RANGE) frame[0] ^= 1; &/'

# in_parts NAME EXPRESSION: the product of C and Y put together wrongly from parts of them
in_parts() {
    local e=${2//C/c[k]}
    e=${e//Y/y[m - k]}
    e=${e//&/"\\&"}
    mutant "$1" -e "s|^            sum += c\[k\] \* y\[m - k\];|            sum += $e;|"
}

group symbols
mutant "codes 8 to 15 rising in order" -e 's/^    9, 11, 13, 15,  .*/    1, 3, 5, 7, 9, 11, 13, 15,/'
mutant "A and B exchanged" -e 's/2 \* (left_by_a % 2) + left_by_b % 2/2 * (left_by_b % 2) + left_by_a % 2/'
mutant "the oldest X1 not masked by a20" -e 's/^        x1\[20 + m\] = symbols\[m\] \/ 4;/        x1[20 + m] = symbols[m] \/ 4; a \&= 1048575;/'
mutant "an encoder that starts with any words" -e '/^struct sdsl_encoded_run ref_encoder_start/,/^}/s/a > 2097151 || b > 2097151/a > 2097151/'
mutant "a history whose last octet is not cleared" -e '/^uint32_t ref_history_start/,/^}/s/i < 720; i++/i < 719; i++/'
mutant "v cut toward zero" -e '/^static int64_t rounded/,/^}/s/^    return v;/    return sum \/ 131072;/'
mutant "halves downward" -e 's/2 \* 131072 \* higher <= 2 \* sum + 131072/2 * 131072 * higher < 2 * sum + 131072/'
mutant "y allowed to be +131,072" -e 's/^    while (u > 131071) {/    while (u > 131072) {/'
mutant "u = x + v" -e 's/brought_into_range(number - v)/brought_into_range(number + v)/'
mutant "history not moved on" -e 's/put_number(history, k - 1, y\[180 + count - k\])/put_number(history, k - 1, y[180 - k])/'
mutant "the 180th coefficient left out" -e '/^        int64_t sum = 0;/,/^        }/s/k <= 180/k < 180/'
in_parts "the high part of a coefficient lost" "(C & 2047) * Y"
in_parts "the low part of a coefficient lost" "(C - (C & 2047)) * Y"
in_parts "one of two cross products left out" "C * Y - (C & 2047) * (Y - (Y & 511))"
in_parts "one cross product twice, the other not" "C * Y + (C >> 11) * (Y & 511) * 512 - (C & 2047) * (Y >> 9) * 512"
in_parts "a cross product put where the other belongs" "C * Y - (C >> 11) * (Y & 511) * 1536"
in_parts "a low part with the number's sign" "(C - (C & 2047) + C % 2048) * Y"
in_parts "an output's low part with its sign" "C * (Y - (Y & 511) + Y % 512)"
in_parts "-1 taken for 4,194,303" "(C & 4194303) * Y"
in_parts "split at 10 bits, put together as at 11" "((C >> 10) * 2048 + (C & 1023)) * Y"
in_parts "-131,072 taken for +131,072" "C * (Y == -131072 ? 131072 : Y)"
in_parts "-2,097,152 taken for +2,097,152" "(C == -2097152 ? 2097152 : C) * Y"
in_parts "the product of the low parts cut to 16 bits" "C * Y - (C & 2047) * (Y & 511) / 65536 * 65536"
in_parts "a low part of 2,047 taken for -1" "((C & 2047) == 2047 ? C - 2048 : C) * Y"
in_parts "one low product of 1 lost" "C * Y - ((C & 2047) * (Y & 511) == 1)"
mutant "a range checked one too wide" -e 's/!all_within(history, 720, -131072, 131071)/!all_within(history, 720, -131072, 131072)/'
mutant "a symbol of 8 taken" -e 's/^        if (symbols\[m\] > 7) {/        if (symbols[m] > 8) {/'
mutant "the float of y / 131,071" -e '/^struct sdsl_shaped ref_shaper/,/^}/s/^    result.value = (float)y;/    result.value = (float)y * 131072.0f \/ 131071.0f;/'

group startup
mutant "report 4 heard before S_c or S_r and remembered (two lines)" -e '/^static struct sdsl_supervisor enter(/,/^}/s/^    s.converged = 0;/    s.converged = phase == SDSL_SC || phase == SDSL_SR ? s.converged : 0;/' -e 's/^        if (s.phase == SDSL_SR || s.phase == SDSL_SC) {/        if (s.phase == SDSL_SR || s.phase == SDSL_SC || s.phase == SDSL_QUIET) {/'
mutant "marks handed in before S_c or S_r kept" -e '/^static struct sdsl_supervisor enter(/,/^}/s/^    s.converged = 0;/    s.converged = phase == SDSL_SC || phase == SDSL_SR ? s.converged : 0;/'
mutant "the 15,000th tick loses to the end of a phase" -e 's/^        if (s.attempt >= 15000) {/        if (s.attempt >= 15000 \&\& phase_by_now(s) == s.phase) {/'
mutant "an exception only at tick 15,001" -e 's/^        if (s.attempt >= 15000) {/        if (s.attempt > 15000) {/'
mutant "7 taken before 6" -e 's/^        return s.phase == SDSL_TR || s.phase == SDSL_FC ? /        return s.phase == SDSL_TR || s.phase == SDSL_FC || s.phase == SDSL_TC ? /'
mutant "the silence not started again" -e 's/^            s.ticks = 0; .*/            ;/'
mutant "Gap one tick longer" -e 's/s.ticks >= 300 ?/s.ticks > 300 ?/'
mutant "the LTU's Quiet as long as the NTU's" -e 's/s.ticks >= 500 ?/s.ticks >= 1500 ?/'
mutant "S_c ends without 4" -e 's/s.ticks >= 5000 && s.converged != 0 ?/s.ticks >= 5000 ?/'
mutant "S_r ends with 4 or 5" -e 's/s.converged != 0 && s.seen != 0 ?/s.converged != 0 || s.seen != 0 ?/'
mutant "only 1 is heard as a mark" -e 's/s.converged != 0 && s.seen != 0 ?/s.converged == 1 \&\& s.seen == 1 ?/'
mutant "8 not heard in Valid" -e '/^    default: \/\* 8, abnormal/,/^}/s/^        if (s.phase == SDSL_EXCEPTION) {/        if (s.phase == SDSL_VALID) return s; else if (s.phase == SDSL_EXCEPTION) {/'
mutant "the longest silence never over" -e '/^static struct sdsl_supervisor tick/,/^}/s/^    s.ticks++;/    s.ticks += s.ticks < 59999;/'
mutant "phase ticks not held at 59,999" -e 's/^        s.ticks = 59999;/        ;/'
mutant "a stray attempt count answered outside an attempt" -e '/^struct sdsl_stepped ref_step/,/^}/s/^    if (is_in_attempt(result.phase)) {/    {/'
mutant "a silence of 60,001 taken" -e '/^struct sdsl_stepped ref_start/,/^}/s/silence > 60000/silence > 60001/'
mutant "the default still 2,000" -e '/^struct sdsl_stepped ref_start/,/^}/s/silence = 5000;/silence = 2000;/'
mutant "the default 4,999" -e '/^struct sdsl_stepped ref_start/,/^}/s/silence = 5000;/silence = 4999;/'
mutant "the default 5,001" -e '/^struct sdsl_stepped ref_start/,/^}/s/silence = 5000;/silence = 5001;/'
mutant "the default still 2,000 at the LTU" -e '/^struct sdsl_stepped ref_start/,/^}/s/silence = 5000;/silence = end == SDSL_LTU ? 2000 : 5000;/'
mutant "the least silence 5,000 at a start" -e '/^struct sdsl_stepped ref_start/,/^}/s/silence < 2000/silence < 5000/'
mutant "the least silence 5,000 in a state" -e '/^static uint32_t judge_state/,/^}/s/s.silence < 2000/s.silence < 5000/'
mutant "a 2,000 that is asked for taken as 0" -e '/^struct sdsl_stepped ref_start/,/^}/s/if (silence == 0)/if (silence == 0 || silence == 2000)/'
mutant "every silence from 2,000 to 4,999 taken as 0" -e '/^struct sdsl_stepped ref_start/,/^}/s/if (silence == 0)/if (silence == 0 || (silence >= 2000 \&\& silence < 5000))/'
mutant "a silence of 1 taken as 0" -e '/^struct sdsl_stepped ref_start/,/^}/s/if (silence == 0)/if (silence <= 1)/'
mutant "a 0 refused" -e '/^struct sdsl_stepped ref_start/,/^}/s/        silence = 5000;/        ;/'
mutant "the default put into the state only when Exception is entered (three lines)" -e '/^static uint32_t judge_state/,/^}/s/s.silence < 2000/(s.silence < 2000 \&\& s.silence != 0)/' -e '/^static struct sdsl_supervisor enter(/,/^}/s/^    s.converged = 0;/&  s.silence = s.silence == 0 \&\& phase == SDSL_EXCEPTION ? 5000 : s.silence;/' -e '/^struct sdsl_stepped ref_start/,/^}/{s/^    if (silence == 0) {/    bool lazy = silence == 0;\n&/;s/result.state.silence = silence;/result.state.silence = lazy ? 0 : silence;/}'
mutant "a code over 8 answered with 4 where the state is bad" -e '/^struct sdsl_stepped ref_step/,/^}/s/^    if (code > 8) {/    if (code > 8 \&\& judge_state(state) != SDSL_OUT_OF_RANGE) {/'
mutant "a run stops at a code over 8" -e '/^struct sdsl_run ref_run_codes/,/^}/s/^        if (codes\[place\] > 8) {/        if (codes[place] > 8) { break;/'
mutant "a run counts the end of an attempt opened before it" -e 's/^        } else if (result.outcome == SDSL_STILL_OPEN && state.phase == SDSL_EXCEPTION) {/        } else if (result.outcome < SDSL_IN_DATA_MODE \&\& state.phase == SDSL_EXCEPTION) {/'
mutant "places not counted over skipped codes" -e '/^struct sdsl_run ref_run_codes/,/^}/s/^            result.opened_at = place;/            for (size_t i = result.opened_at = place; i > 0; i--) result.opened_at -= codes[i - 1] > 8;/'

echo "$tried mutants, $((tried - missed)) caught"
[ "$missed" -eq 0 ] && [ "$tried" -gt 0 ]
