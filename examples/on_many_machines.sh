#!/usr/bin/env bash
# A play on many machines: GNU parallel has each play a range of the instants, and the parts are joined in their order.
#
# usage: on_many_machines.sh [-S LOGINS] [-n RANGES] [-p PROGRAM] [-i FILM [-f FILTER]] [-e OPTIONS] OUT WORDS..
#
#   -S LOGINS    the machines, as parallel's --sshlogin has them: `:` (this one, by default), `user@host`, `4/host` for
#                four ranges at once, with commas between
#   -n RANGES    how many ranges there are, 16 by default; more than machines, so that all are done at about one time
#   -p PROGRAM   the program on each machine, ../vimalorua or vimalorua by default
#   -i FILM      lays the play over this film, from --from to --to
#   -f FILTER    how ffmpeg does so: the film is [0:v], the play [1:v]
#   -e OPTIONS   how ffmpeg encodes a video: '-c:v libx264' over a film, '-c:v ffv1 -pix_fmt bgra', with alpha, without one
#   OUT          what is made: images as they come where its name ends with .ppm, .pam or .rgba, the same bytes that one
#                play writes; else a video that ffmpeg makes
#   WORDS        the options and names of a play: --from, --to or --frames, --step or --rate, --size, others, SCRIPT FONT..
#
# Each machine has this folder, the working folder, the script, the fonts and the film at the same paths, and ffmpeg
# where a video is made. What it makes comes back through ssh. For other ways to share work out (on_many_machines.sbatch):
#
#   -r RANGE     writes just this part, from 0, to standard output
#   -w RANGE     writes it as OUT.parts/RANGE
#   -j           joins these parts
set -euo pipefail

die() {
    printf '%s: %s\n' "${0##*/}" "$1" >&2
    exit 2
}

# milliseconds NUMBER: as seconds
seconds() {
    printf '%d.%03d' $(($1 / 1000)) $(($1 % 1000))
}

read_options() {
    local letter
    logins=: ranges=16 film='' filter='[0:v][1:v]overlay=eof_action=pass' encoder='' range='' writes='' joins=''
    program=$(dirname -- "$(dirname -- "$self")")/vimalorua
    [ -x "$program" ] || program=vimalorua
    while getopts S:n:p:i:f:e:r:w:j letter; do
        case $letter in
        S) logins=$OPTARG ;;
        n) ranges=$OPTARG ;;
        p) program=$OPTARG ;;
        i) film=$OPTARG ;;
        f) filter=$OPTARG ;;
        e) encoder=$OPTARG ;;
        r) range=$OPTARG ;;
        w) range=$OPTARG writes=1 ;;
        j) joins=1 ;;
        *) die 'see the head of this file' ;;
        esac
    done
    [[ $ranges =~ ^[1-9][0-9]{0,5}$ ]] || die "-n takes a number from 1 to 999999, and not '$ranges'"
}

# Parts the words of a play into its instants and its size, and all else.
read_words() {
    local value
    from='' to='' count='' step='' rate='''' size='' others=()
    while [ $# -gt 0 ]; do
        case $1 in
        --) others+=("$@") && break ;;
        --from | --to | --frames | --step | --rate | --size) value=${2-} && set -- "$1=$value" "${@:3}" ;;
        esac
        value=${1#*=}
        case $1 in
        --from=*) from=$value ;;
        --to=*) to=$value ;;
        --frames=*) count=$value ;;
        --step=*) step=$value ;;
        --rate=*) rate=$value ;;
        --size=*) size=$value ;;
        --times | --times=* | --changed) die "a play by ${1%=*} can't be cut into ranges" ;;
        *) others+=("$1") ;;
        esac
        shift
    done
    [ -z "$to" ] || [ -z "$count" ] || die 'a play has --to or --frames, and not both'
    [[ $from =~ ^[0-9]{1,13}$ && $to$count =~ ^[0-9]{1,13}$ && $size =~ ^[0-9]+x[0-9]+$ ]] ||
        die 'a play has --from, --to or --frames, and --size'
    [ -z "$step" ] || rate=1000/$step
    [[ $rate =~ ^([0-9]{1,7})(/([0-9]{1,13}))?$ ]] || die 'a play has --step or --rate'
    frames=$((10#${BASH_REMATCH[1]})) per=$((10#${BASH_REMATCH[3]:-1})) from=$((10#$from))
    [ $((frames * per)) -gt 0 ] || die "no play has the rate $rate"
    # behind the last instant
    [ -n "$to" ] || to=$((from + 1000 * (10#$count - 1) * per / frames + 1))
    to=$((10#$to))
}

# A range begins where an image stands at a whole millisecond: then its instants are those of the whole play. The period
# is the least time from one such image to the next.
cut() {
    local one=$frames other=$((1000 * per)) all
    while [ "$other" -gt 0 ]; do
        set -- "$other" $((one % other))
        one=$1 other=$2
    done
    period=$((1000 * per / one))
    all=$((to > from ? (to - from + period - 1) / period : 1))
    ranges=$((ranges < all ? ranges : all))
    periods=$all
}

# begin RANGE: the instant at which it begins, which is the end of the one before
begin() {
    [ "$1" = "$ranges" ] && echo "$to" || echo $((from + period * (periods * $1 / ranges)))
}

# Images of a range. A play's report is shown only where it failed; a reader that is gone has read its fill.
images() {
    local status=0 said instants=(--from "$first" --to "$last")
    [ -n "$step" ] && instants+=(--step "$step") || instants+=(--rate "$rate")
    { said=$("$program" play "${instants[@]}" --size "$size" "$@" "${others[@]}" 2>&1 >&3) || status=$?; } 3>&1
    [ "$status" != 0 ] || return 0
    [ -n "$video" ] && [ "$status" = 7 ] || printf '%s\n' "$said" >&2
    return "$status"
}

# A part to standard output.
part() {
    local first last above=() words=()
    [ "$1" -lt "$ranges" ] || return 0
    first=$(begin "$1") last=$(begin $(($1 + 1)))
    if [ -z "$video" ]; then
        images
        return
    fi
    above=(-f rawvideo -pix_fmt rgba -video_size "$size" -framerate "$frames/$per" -i -)
    read -ra words <<< "$encoder"
    if [ -n "$film" ]; then
        above=(-ss "$(seconds "$first")" -t "$(seconds $((last - first)))" -i "$film" "${above[@]}")
        above+=(-filter_complex "$filter")
    fi
    { images --format rgba || [ $? = 7 ]; } | ffmpeg -v error "${above[@]}" -an -sn "${words[@]}" -f nut -
}

join() {
    local at all=()
    for ((at = 0; at < ranges; at++)); do
        all+=("$parts/$at")
    done
    if [ -z "$video" ]; then
        cat -- "${all[@]}" > "$out"
        return
    fi
    for ((at = 0; at < ranges; at++)); do
        printf "file '%s'\nduration %s\n" "$at" "$(seconds $(($(begin $((at + 1))) - $(begin "$at"))))"
    done > "$parts/list"
    all=(-f concat -safe 0 -i "$parts/list" -map 0:v)
    [ -z "$film" ] || all=("${all[@]:0:6}" -ss "$(seconds "$from")" -t "$(seconds $((to - from)))" -i "$film" -map 0:v -map '1:a?')
    ffmpeg -v error -nostdin -y "${all[@]}" -c copy "$out"
}

# Hands the ranges to the machines. Each line that parallel reads is a whole command.
share() {
    local at words=("$self" -n "$ranges" -p "$program" ${film:+-i "$film" -f "$filter"} -e "$encoder")
    rm -rf -- "$parts"
    mkdir -- "$parts"
    for ((at = 0; at < ranges; at++)); do
        printf 'cd %q && ' "$PWD"
        printf '%q ' "${words[@]}" -r "$at" -- "$@"
        echo
    done > "$parts/commands"
    cd -- "$parts"
    if ! parallel --sshlogin "$logins" --results '{#}' --files --retries 3 --halt 'now,fail=1' < commands > made; then
        cat -- *.err >&2 || true
        cd -- "$OLDPWD"
        rm -rf -- "$parts"
        exit 1
    fi
    for ((at = 0; at < ranges; at++)); do
        mv -- "$((at + 1))" "$at"
    done
    cd -- "$OLDPWD"
}

self=$(readlink -f -- "${BASH_SOURCE[0]}")
read_options "$@"
shift $((OPTIND - 1))
[ $# -gt 1 ] || die 'see the head of this file'
out=$1 parts=$1.parts video=1
case $out in
*.ppm | *.pam | *.rgba) video='' ;;
*) : "${encoder:=$([ -n "$film" ] && echo '-c:v libx264' || echo '-c:v ffv1 -pix_fmt bgra')}" ;;
esac
read_words "${@:2}"
cut
if [ -n "$writes" ]; then
    mkdir -p -- "$parts"
    part "$range" > "$parts/$range.begun"
    exec mv -- "$parts/$range.begun" "$parts/$range"
elif [ -n "$range" ]; then
    part "$range"
    exit
fi
[ -n "$joins" ] || share "$@"
join
rm -rf -- "$parts"
